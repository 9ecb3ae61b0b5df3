//! Sessions that only anchor, against the naive working: all small graphs, random pools to 40 vertices, large ones against the quick
//! working, damaged ones, the limits; and what is climbed along them, by the planner's own records alone. PLANNER_LONG=1 runs more.

mod shared;

use planner::Record;
use pools::{Pool, Random};
use reference::{Plain, Session};
use shared::sessions::{
    accepted, climbed, compare, compare_damaged, compare_in, compare_quick, compare_with, count_widths, names, started, Call, Left,
};
use shared::{greatest_yield, least_yield, small_pools_by_table, DAMAGES};
use std::collections::BTreeSet;

/// From one record of a session to the next, by one name more: the sum of climbs grows by the name's net yield as it stood before, if it
/// is accepted. Counts such names by yields below 0, 0 and above.
fn compare_climbs(name: u16, [before, after]: [&Record; 2], bare: &[u16], signs: &mut [usize; 3]) {
    let mut sum = climbed(before, bare);
    if after.status.last() == Some(&0) {
        let net = before.yields[name as usize];
        sum += net as i64;
        signs[(net.signum() + 1) as usize] += 1;
    }
    assert_eq!(climbed(after, bare), sum, "{before:?} {name}");
}

/// A session with a call for each number of names.
fn climbs_of(pool: &Pool, list: &[u16], signs: &mut [usize; 3]) {
    let upto: Vec<Left> = (0..=list.len()).map(|i| accepted(pool, &names(&list[..i]))).collect();
    let bare = upto[0].bare_levels();
    for (i, &name) in list.iter().enumerate() {
        compare_climbs(name, [&upto[i].record, &upto[i + 1].record], &bare, signs);
    }
}

/// Random names: repeats, and some of n or more.
fn random_names(random: &mut Random, n: usize, most: usize) -> Vec<u16> {
    (0..random.below(most + 1))
        .map(|_| if random.one_in(40) { 65535 - random.below(3) } else { random.below(n + 2) } as u16)
        .collect()
}

/// Lists of names on pools of one table, with the naive working of all of them.
struct Lists {
    naive: Plain,
    longest: usize,
    bare: Vec<u16>,
    sessions: [usize; 4],
    signs: [usize; 3],
    widths: [usize; 3],
}

impl Lists {
    /// The list, whose naive session this is, and every longer one that begins with it; n is an unknown name.
    fn compare(&mut self, pool: &Pool, list: &[u16], session: &Session) -> Record {
        let record = compare_with(pool, &names(list), &self.naive, session).record;
        self.sessions[list.len()] += 1;
        count_widths(&record, &self.bare, &mut self.widths);
        if list.len() == self.longest {
            return record;
        }
        for name in 0..=pool.size() as u16 {
            let more = [list, &[name]].concat();
            let next = self.naive.take(session, names(&more)[list.len()]);
            let after = self.compare(pool, &more, &next);
            compare_climbs(name, [&record, &after], &self.bare, &mut self.signs);
        }
        record
    }
}

/// Of all lists of `all_small_graphs` those whose last name is accepted, with a net yield below 0, of 0 and above; and in a long run. The
/// figures were counted apart from the tests.
const SIGNS: [usize; 3] = [79_883, 368_774, 87_178];
const LONG_SIGNS: [usize; 3] = [477_758, 1_705_909, 400_168];

/// Of the vertices not anchored at the end of each of them those from which the search reaches nobody, followers alone, and others too,
/// counted so too.
const WIDTHS: [usize; 3] = [2_147_620, 426_778, 143_166];
const LONG_WIDTHS: [usize; 3] = [10_660_480, 1_858_268, 438_816];

/// Every list of up to two names on all graphs of up to 5 vertices with every anchor set, and of three to 4 vertices.
#[test]
fn all_small_graphs() {
    let (mut sessions, mut signs, mut widths) = ([0; 4], [0; 3], [0; 3]);
    for same_table in small_pools_by_table(5) {
        let longest = if same_table[0].size() < 5 || pools::long() { 3 } else { 2 };
        let bare = accepted(&same_table[0], &[]).bare_levels();
        let mut lists = Lists { naive: Plain::default(), longest, bare, sessions, signs, widths };
        for pool in &same_table {
            let session = started(pool, &mut lists.naive);
            lists.compare(pool, &[], &session);
        }
        Lists { sessions, signs, widths, .. } = lists;
    }
    println!("sessions on all graphs of up to 5 vertices with every anchor set: {sessions:?} of 0, 1, 2 and 3 names");
    println!("the last name accepted, by the sign of its net yield: {signs:?}");
    println!("vertices not anchored, by whom the search reaches, nobody, followers alone, and others too: {widths:?}");
    // 1, 2, 8, 64, 1,024 and 32,768 pools of 0 to 5 vertices, with 1 to 6 names: for one name 1 + 4 + 24 + 256 + 5,120 + 196,608, for
    // two 1 + 8 + 72 + 1,024 + 25,600 + 1,179,648, for three 1 + 16 + 216 + 4,096 + 128,000
    let three = 132_329 + if pools::long() { 32_768 * 6 * 6 * 6 } else { 0 };
    assert_eq!(sessions, [33_867, 202_013, 1_206_353, three]);
    assert_eq!((signs, widths), if pools::long() { (LONG_SIGNS, LONG_WIDTHS) } else { (SIGNS, WIDTHS) });
}

/// On the same graphs some longer lists, slices of wrong lengths, too many names, and damage.
#[test]
fn all_small_graphs_otherwise() {
    let (mut more, mut wrong, mut damaged) = (0, 0, 0);
    let (mut seen, mut random) = (BTreeSet::new(), Random(3141592653));
    let too_many = names(&[0; 4097]);
    for same_table in small_pools_by_table(5) {
        let (n, mut naive) = (same_table[0].size() as u16, Plain::default());
        for pool in &same_table {
            let each = (0..=n).flat_map(|x| [x, x, 65535]).collect();
            for list in [(0..n).collect(), (0..n).rev().collect(), each, random_names(&mut random, n as usize, 9)] {
                compare_in(pool, &names(&list), &mut naive);
                more += 1;
            }
            wrong += Call::new(pool, &names(&[0, n])).refused_lengths();
            Call::new(pool, &too_many).refused(11, 0);
            seen.extend(compare_damaged(&pool.damaged(&mut random), &names(&[0, n])));
            damaged += 1;
        }
    }
    println!("{more} more sessions on them, {wrong} with a wrong length, {damaged} on damaged pools, refusals {seen:?}");
    // ten slices too short or too long; the seven for vertices are not too short where there are none
    assert_eq!((more, wrong, damaged), (4 * 33_867, 20 * 33_867 - 7, 33_867));
    assert_eq!(seen, DAMAGES.into());
}

#[test]
fn random_pools() {
    let mut random = Random(2718281829);
    let count = if pools::long() { 100000 } else { 10000 };
    let mut served = 0;
    for i in 0..count {
        let pool = Pool::random_small(&mut random, if i % 4 == 0 { 40 } else { 16 });
        let list = random_names(&mut random, pool.size(), 12);
        compare(&pool, &names(&list));
        served += list.len();
    }
    println!("{count} sessions on random pools to 40 vertices, {served} names");
}

/// What is climbed along sessions on random pools and on large ones.
#[test]
fn climbs() {
    let (mut random, mut signs) = (Random(1123581321), [0; 3]);
    let count = if pools::long() { 20000 } else { 2000 };
    for i in 0..count {
        let pool = Pool::random_small(&mut random, if i % 4 == 0 { 40 } else { 16 });
        let list = random_names(&mut random, pool.size(), 12);
        climbs_of(&pool, &list, &mut signs);
    }
    println!("{count} sessions on random pools to 40 vertices, names by the sign of their net yields: {signs:?}");
    assert!(signs.iter().all(|&names| names > 500));
    let mut signs = [0; 3];
    for m in [900, 2000, 5000, 8192] {
        let mut pool = Pool::random(&mut random, 1024, m);
        for _ in 0..60 {
            pool.anchored[random.below(1024)] = 1;
        }
        let list: Vec<u16> = (0..8).map(|_| random.below(1026) as u16).collect();
        climbs_of(&pool, &list, &mut signs);
    }
    println!("4 sessions on pools of 1,024 vertices: {signs:?}");
    assert!(signs.iter().all(|&names| names > 0));
}

#[test]
fn large_pools() {
    let mut random = Random(5772156649);
    let (count, most) = if pools::long() { (40, 400) } else { (8, 60) };
    for i in 0..count {
        let mut pool = Pool::random(&mut random, 1024, [900, 2000, 5000, 8192][i % 4]);
        for _ in 0..random.below(40) {
            pool.anchored[random.below(1024)] = 1;
        }
        let list = random_names(&mut random, 1024, most);
        compare_quick(&pool, &names(&list));
    }
    let chain = Pool::of_edges(1024, (0..1023).map(|v| (v, v + 1)), vec![0; 1024]);
    compare_quick(&chain, &names(&[0, 1023, 512, 511, 512, 1024]));
    println!("{} sessions on pools of 1,024 vertices", count + 1);
}

#[test]
fn damaged_pools() {
    let (mut seen, mut random) = (BTreeSet::new(), Random(1414213562));
    let count = if pools::long() { 400000 } else { 40000 };
    for _ in 0..count {
        let pool = Pool::random_small(&mut random, 10).damaged(&mut random);
        let list = random_names(&mut random, pool.size(), 4);
        seen.extend(compare_damaged(&pool, &names(&list)));
    }
    println!("{count} damaged pools; refusals {seen:?}");
    assert_eq!(seen, DAMAGES.into());
}

/// A session told by hand: edges, anchored bytes and names; of each name status, lifted and redone; stamps, net yields and reached counts
/// at the end.
type Told = (&'static [(usize, usize)], &'static [u8], &'static [u16], &'static [[u16; 3]], &'static [u16], &'static [i16], &'static [u16]);

#[test]
fn small_examples() {
    const NO: i16 = -32768;
    const A: u16 = 65535;
    const CHAIN: &[(usize, usize)] = &[(0, 1), (1, 2), (2, 3)];
    const PAIRS: &[(usize, usize)] = &[(0, 1), (0, 2)];
    const STAR: &[(usize, usize)] = &[(0, 1), (0, 2), (0, 3)];
    // 3 has two anchored neighbors, 4 is in a triangle, 2 is between them
    const BETWEEN: &[(usize, usize)] = &[(0, 3), (1, 3), (2, 3), (2, 4), (4, 5), (4, 6), (5, 6)];
    let cases: [Told; 16] = [
        // from an end the search reaches its neighbor, which it does not lift
        (CHAIN, &[0, 0, 0, 0], &[], &[], &[0, 0, 0, 0], &[0, 0, 0, 0], &[1, 0, 0, 1]),
        (CHAIN, &[1, 0, 0, 0], &[], &[], &[0, 0, 0, 0], &[NO, 0, 1, 2], &[A, 0, 1, 2]),
        // 1 and 2 have climbed a level and lift nobody
        (CHAIN, &[1, 0, 0, 1], &[], &[], &[0, 0, 0, 0], &[NO, -1, -1, NO], &[A, 0, 0, A]),
        (
            CHAIN, &[0, 0, 0, 0], &[0, 0, 3, 9], &[[0, 0, 2], [16, 0, 0], [0, 2, 2], [15, 0, 0]],
            &[1, 3, 3, 3], &[NO, -1, -1, NO], &[A, 0, 0, A],
        ),
        (STAR, &[0, 1, 0, 0], &[2], &[[0, 1, 2]], &[1, 0, 1, 1], &[-1, NO, NO, 1], &[0, A, A, 1]),
        // 0 has no neighbor of greater pair: its row is redone because its level changed
        (PAIRS, &[0, 1, 0], &[2], &[[0, 1, 1]], &[1, 0, 1], &[-1, NO, NO], &[0, A, A]),
        // neither 0 nor 3 lifts anybody, and 0 has climbed
        (PAIRS, &[0, 1, 1, 0], &[], &[], &[0, 0, 0, 0], &[-1, NO, NO, 0], &[0, A, A, 0]),
        (PAIRS, &[0, 1, 1, 0], &[3, 0], &[[0, 0, 0], [0, 0, 0]], &[2, 0, 0, 1], &[NO; 4], &[A; 4]),
        // 2 has looked into a component that is gone
        (PAIRS, &[0, 1, 0], &[0], &[[0, 0, 1]], &[1, 0, 1], &[NO, NO, 0], &[A, A, 0]),
        // 0 looks into a component that is new
        (&[(0, 1), (0, 3), (1, 2)], &[0; 4], &[2], &[[0, 0, 2]], &[1, 0, 1, 1], &[1, 0, NO, 2], &[1, 0, A, 2]),
        // 2 looks into its component, of which 0 has one more anchored neighbor
        (&[(0, 1), (0, 2), (0, 3), (1, 2)], &[0, 1, 0, 0], &[3], &[[0, 0, 1]], &[0, 0, 1, 1], &[0, NO, 1, NO], &[0, A, 1, A]),
        // 0 is reached from both others; once it is anchored it is not, and their yields are what they were
        (PAIRS, &[0, 0, 0], &[], &[], &[0, 0, 0], &[0, 0, 0], &[0, 1, 1]),
        (PAIRS, &[0, 0, 0], &[0], &[[0, 0, 2]], &[1, 1, 1], &[NO, 0, 0], &[A, 0, 0]),
        // another component's vertex is anchored, and their rows are kept
        (&[(0, 1), (0, 2), (3, 4)], &[0; 5], &[3], &[[0, 0, 0]], &[0, 0, 0, 1, 0], &[0, 0, 0, NO, 0], &[0, 1, 1, A, 0]),
        // from 2 the search reaches 3, which it lifts, and 4, which it does not
        (BETWEEN, &[1, 1, 0, 0, 0, 0, 0], &[], &[], &[0; 7], &[NO, NO, 0, -1, 0, 0, 0], &[A, A, 2, 0, 0, 1, 1]),
        (BETWEEN, &[1, 1, 0, 0, 0, 0, 0], &[2], &[[0, 1, 3]], &[0, 0, 1, 1, 0, 1, 1], &[NO, NO, NO, -2, 0, 0, 0], &[A, A, A, 0, 0, 1, 1]),
    ];
    for (edges, anchored, list, rows, stamps, yields, reached) in cases {
        let pool = Pool::of_edges(anchored.len(), edges.iter().copied(), anchored.to_vec());
        let record = compare(&pool, &names(list)).record;
        let columns = record.status.iter().zip(&record.lifted).zip(&record.redone);
        assert_eq!(columns.map(|((&status, &lifted), &redone)| [status, lifted, redone]).collect::<Vec<_>>(), rows, "{pool:?} {list:?}");
        assert_eq!((&record.stamps[..], &record.yields[..], &record.reached[..]), (stamps, yields, reached), "{pool:?} {list:?}");
    }
}

#[test]
fn limits() {
    assert_eq!(compare_quick(&least_yield(), &[]).record.yields[..2], [-1022, -32768]);
    assert_eq!(compare_quick(&least_yield(), &names(&[0, 0])).record.yields, [-32768; 1024]);
    let record = compare_quick(&greatest_yield(), &[]).record;
    assert_eq!((record.yields[1023], record.reached[1023]), (1023, 1023));
    assert_eq!(compare_quick(&greatest_yield(), &names(&[1023])).record.lifted, [1023]);
    // up to the middle, though nobody is lifted; and with an end anchored up to it, where all who are reached are
    let chain = Pool::of_edges(1024, (0..1023).map(|v| (v, v + 1)), vec![0; 1024]);
    let record = compare_quick(&chain, &[]).record;
    assert!(record.yields == [0; 1024] && record.reached.into_iter().eq((0..512).rev().chain(0..512)));
    let record = compare_quick(&chain, &names(&[0])).record;
    assert!(record.reached.into_iter().eq([65535].into_iter().chain(0..1023)));
    let mut random = Random(1618033988);
    for pool in [Pool::random(&mut random, 40, 90), Pool::random(&mut random, 1024, 3000)] {
        let list: Vec<u16> = (0..4096).map(|i| if i < 4056 { 2000 + i } else { i - 4056 }).collect();
        compare_quick(&pool, &names(&list));
    }
    let empty = Pool::of_edges(0, [], vec![]);
    assert_eq!(compare(&empty, &[]).record.reached, []);
    compare(&empty, &names(&[0, 5, 65535]));
    compare(&empty, &names(&[0; 4096]));
    Call::new(&empty, &names(&[0; 4097])).refused(11, 0);
}
