//! Sheets that houses share: against the naive working on all small graphs with every way to share out their vertices, and on many random
//! ones; against the quick one on large ones; by what is said of turns and quotas, and by the planner's other calls, without either. Its
//! refusals, several at once too. PLANNER_LONG=1 runs more.

mod shared;

use planner::Input;
use pools::{Pool, Random};
use reference::Plain;
use shared::faults::{self, faults, first_is_told, Fault};
use shared::houses::{names, Call};
use shared::sessions::{self, accepted};
use shared::{broken, greatest_yield, least_yield, page, page_examples, small_pools, DAMAGES};
use std::array::from_fn;
use std::cmp::Reverse;
use std::collections::BTreeMap;

/// What is left before a line: of each house its quota, and which vertices are not anchored.
#[derive(Clone)]
struct Left<'a> {
    houses: &'a [u16],
    quotas: Vec<u16>,
    free: Vec<bool>,
}

impl Left<'_> {
    fn start(call: &Call) -> Left<'_> {
        let free = call.pool.anchored.iter().map(|&byte| byte == 0).collect();
        Left { houses: &call.houses, quotas: call.quotas.clone(), free }
    }

    fn is_spent(&self, house: usize) -> bool {
        self.quotas[house] == 0
    }

    fn is_passed(&self, house: usize) -> bool {
        let has_free = self.houses.iter().zip(&self.free).any(|(&other, &free)| free && other as usize == house);
        self.is_spent(house) || !has_free
    }

    /// After a line that anchors x, or nobody.
    fn after(&self, name: Option<usize>) -> Self {
        let mut left = self.clone();
        if let Some(x) = name {
            let quota = &mut left.quotas[self.houses[x] as usize];
            *quota = quota.saturating_sub(1);
            left.free[x] = false;
        }
        left
    }
}

/// What is left before each line, and behind the last.
fn lefts<'a>(call: &'a Call, names: &[Option<usize>]) -> Vec<Left<'a>> {
    let mut lefts = vec![Left::start(call)];
    names.iter().for_each(|&name| lefts.push(lefts[lefts.len() - 1].after(name)));
    lefts
}

/// What of this does not hold, whatever the order of turns and whomever the houses choose: nobody is anchored twice; no house has more lines
/// than its quota; a line names nobody only if all houses are passed; and a house not to be passed before a line is served within as many
/// lines as there are houses.
fn broken_claim(call: &Call, names: &[Option<usize>]) -> Option<&'static str> {
    let (number, lefts) = (call.quotas.len(), lefts(call, names));
    for (left, name) in lefts.iter().zip(names) {
        match *name {
            Some(x) if !left.free[x] => return Some("anchored twice"),
            Some(x) if left.is_spent(call.houses[x] as usize) => return Some("above the quota"),
            None if !(0..number).all(|house| left.is_passed(house)) => return Some("nobody named"),
            _ => {}
        }
    }
    let serves = |line: usize, house: usize| names[line].is_some_and(|x| call.houses[x] as usize == house);
    let is_served = |from: usize, house: usize| (from..(from + number).min(names.len())).any(|line| serves(line, house));
    let waits = |(i, left): (usize, &Left)| (0..number).any(|house| !left.is_passed(house) && !is_served(i, house));
    lefts.iter().enumerate().any(waits).then_some("not served in time")
}

/// Turns go round from house 0, and on from behind the house served. How many houses were passed before lines that served one: because
/// their quota was spent; and, it not being spent, because none of their vertices was left.
fn passes(call: &Call, names: &[Option<usize>]) -> [usize; 2] {
    let (number, mut next, mut passes) = (call.quotas.len(), 0, [0; 2]);
    for (i, (left, name)) in lefts(call, names).iter().zip(names).enumerate() {
        let Some(x) = *name else { break };
        let (turns, served) = ((next..number).chain(0..next), call.houses[x] as usize);
        assert_eq!(turns.clone().find(|&house| !left.is_passed(house)), Some(served), "line {i} of {names:?} {call:?}");
        turns.take_while(|&house| house != served).for_each(|house| passes[!left.is_spent(house) as usize] += 1);
        next = served + 1;
    }
    passes
}

/// How many calls were accepted, and what their sheets say: lines, those with nobody left to anchor, vertices lifted, rows redone; and
/// houses passed because their quota was spent, and because they had nobody left.
#[derive(Default, PartialEq, Debug)]
struct Met {
    calls: usize,
    lines: usize,
    nobody: usize,
    lifted: usize,
    redone: usize,
    spent: usize,
    emptied: usize,
}

impl Met {
    fn note(&mut self, call: &Call, sheet: &str) {
        let names = names(sheet);
        assert_eq!(broken_claim(call, &names), None, "{names:?} {call:?}");
        let [spent, emptied] = passes(call, &names);
        self.calls += 1;
        self.lines += sheet.lines().count();
        self.nobody += sheet.matches("(retain ----)").count();
        self.lifted += sheet.matches('+').count();
        self.redone += sheet.lines().map(|line| line[line.len() - 6..line.len() - 2].parse::<usize>().unwrap()).sum::<usize>();
        self.spent += spent;
        self.emptied += emptied;
    }

    /// Every way to share out the vertices among as many houses as there are quotas, with each list of quotas.
    fn share_all(&mut self, pool: &Pool, quotas: &[Vec<u16>]) {
        let mut naive = Plain::default();
        for quotas in quotas {
            for houses in all_lists(pool.size(), quotas.len() as u16) {
                let call = Call::new(pool, &houses, quotas);
                self.note(&call, &call.compare_in(&mut naive));
            }
        }
    }

    /// Some of each kind.
    fn in_every_way(&self) {
        let Met { calls, lines, nobody, lifted, redone, spent, emptied } = *self;
        assert!(0 < calls && 0 < nobody && nobody < lines && 0 < lifted && 0 < redone && 0 < spent && 0 < emptied, "{self:?}");
    }
}

/// Names that break each claim, in six vertices of three houses.
#[test]
fn claims() {
    let call = Call::new(&Pool::of_edges(6, [], vec![0; 6]), &[0, 0, 1, 1, 2, 2], &[2, 1, 2]);
    let told = |names: &[usize]| broken_claim(&call, &names.iter().map(|&x| (x < 6).then_some(x)).collect::<Vec<_>>());
    assert_eq!(told(&[0, 2, 4, 1, 5]), None);
    // the claims do not say which house comes first, or whom it chooses
    assert_eq!(told(&[5, 3, 1, 4, 0]), None);
    assert_eq!(told(&[0, 2, 4, 0, 5]), Some("anchored twice"));
    assert_eq!(told(&[0, 2, 4, 3, 5]), Some("above the quota"));
    assert_eq!(told(&[0, 2, 4, 1, 9]), Some("nobody named"));
    // house 2 from the first line on, house 0 from the second on, house 2 from the last on
    for names in [[0, 1, 2, 4, 5].as_slice(), &[0, 2, 4, 5, 1], &[0, 2, 4, 1]] {
        assert_eq!(told(names), Some("not served in time"), "{names:?}");
    }
    assert_eq!(told(&[0, 2, 4, 1, 5, 9]), None);
}

/// Every list of so many numbers below a bound.
fn all_lists(length: usize, bound: u16) -> Vec<Vec<u16>> {
    let longer = |list: &Vec<u16>| (0..bound).map(|last| [list.as_slice(), &[last]].concat()).collect::<Vec<_>>();
    (0..length).fold(vec![vec![]], |lists, _| lists.iter().flat_map(longer).collect())
}

/// All quotas of one house up to 5, of two houses up to 3 each, of three houses up to 2 each: 6 + 16 + 27 lists.
fn all_quotas() -> Vec<Vec<u16>> {
    [(1, 6), (2, 4), (3, 3)].into_iter().flat_map(|(number, bound)| all_lists(number, bound)).collect()
}

/// Some of one, two and three houses.
fn some_quotas() -> Vec<Vec<u16>> {
    [[4].as_slice(), &[2, 3], &[3, 0], &[1, 2, 2], &[2, 0, 1], &[0, 1, 4]].map(<[u16]>::to_vec).into()
}

/// What sheets say on all graphs of up to 3 vertices with every anchor set, and on those of 4 vertices with nobody anchored, with all quotas;
/// and on those of 4 vertices with every other anchor set, with some. The figures were counted apart from the tests.
const ALL_QUOTAS: Met =
    Met { calls: 214_759, lines: 643_860, nobody: 271_057, lifted: 47_671, redone: 259_912, spent: 133_687, emptied: 84_559 };
const SOME_QUOTAS: Met =
    Met { calls: 264_960, lines: 1_137_600, nobody: 785_728, lifted: 50_872, redone: 97_912, spent: 127_360, emptied: 154_240 };

/// Every way to share out the vertices of small graphs. In a long run with all quotas.
#[test]
fn all_small_graphs() {
    let ([mut all, mut some, mut rest], quotas) = ([0; 3].map(|_| Met::default()), [all_quotas(), some_quotas()]);
    for pool in small_pools(4) {
        if pool.size() < 4 || pool.anchored == [0; 4] {
            all.share_all(&pool, &quotas[0]);
            continue;
        }
        some.share_all(&pool, &quotas[1]);
        if pools::long() {
            rest.share_all(&pool, &quotas[0]);
        }
    }
    println!("houses on all graphs of up to 4 vertices, with all quotas: {all:?}; of 4 with anchors, with some quotas: {some:?}, with all: {rest:?}");
    assert_eq!((all, some), (ALL_QUOTAS, SOME_QUOTAS));
    // 64 graphs with 15 anchor sets, 1, 16 and 81 ways to share out four vertices
    assert!(!pools::long() || rest.calls == 64 * 15 * (6 + 16 * 16 + 81 * 27));
}

/// The sheet by the planner's session and search: the named vertex has the greatest net yield of its house, and is the lowest of these;
/// it lifts the vertices with a `+`, and as many rows are redone.
fn agrees_with_sessions(call: &Call, sheet: &str) {
    let Call { pool: Pool { starts, links, .. }, houses, .. } = call;
    let list: Vec<u16> = names(sheet).into_iter().flatten().map(|x| x as u16).collect();
    let redone = accepted(&call.pool, &sessions::names(&list)).record.redone;
    let mut lines = sheet.lines();
    for (i, &x) in list.iter().enumerate() {
        let (before, mut marks) = (accepted(&call.pool, &sessions::names(&list[..i])).record, vec![0; houses.len()]);
        let is_free = |&v: &usize| before.anchored[v] == 0 && houses[v] == houses[x as usize];
        let best = (0..houses.len()).filter(is_free).max_by_key(|&v| (before.yields[v], Reverse(v)));
        assert_eq!(best, Some(x as usize), "line {i} of {sheet}{call:?}");
        let input = Input { starts, links, anchored: &before.anchored };
        planner::followers(input, &before.levels, &before.layers, x as usize, &mut marks).unwrap();
        let signs: String = marks.iter().map(|&mark| if mark == 2 { '+' } else { '.' }).collect();
        let line = format!("(round {:02} (retain {x:04}) (marks {signs}) (redone {:04}))", i + 1, redone[i]);
        assert_eq!(lines.next(), Some(line.as_str()), "{call:?}");
    }
    let dots = ".".repeat(houses.len());
    for (i, line) in lines.enumerate() {
        assert_eq!(line, format!("(round {:02} (retain ----) (marks {dots}) (redone 0000))", list.len() + i + 1), "{call:?}");
    }
}

/// Up to 16 houses, some without a vertex, some without a round, of random pools.
#[test]
fn random_graphs() {
    let (mut met, mut random) = (Met::default(), Random(1597334677));
    for i in 0..if pools::long() { 40000 } else { 3000 } {
        let pool = Pool::random_small(&mut random, if i % 20 == 0 { 40 } else { 12 });
        let (houses, quotas) = pool.random_houses(&mut random, if i % 10 == 0 { 60 } else { pool.size() + 2 });
        let call = Call::new(&pool, &houses, &quotas);
        met.note(&call, &call.compare().unwrap());
    }
    println!("houses on random graphs: {met:?}");
    met.in_every_way();
}

/// The sheet as the archive leaves it, held to nothing but what is said of turns and quotas, and to the planner's other calls.
#[test]
fn turns_and_choices() {
    let (mut met, mut random) = (Met::default(), Random(805306457));
    for i in 0..if pools::long() { 20000 } else { 1500 } {
        let pool = match i % 50 {
            0 => Pool::random(&mut random, 200, 600),
            _ => Pool::random_small(&mut random, 25),
        };
        let (houses, quotas) = pool.random_houses(&mut random, pool.size().min(40) + 2);
        let call = Call::new(&pool, &houses, &quotas);
        let (answer, sheet) = call.make();
        assert_eq!((answer.number, answer.first), (0, call.room as u64), "{call:?}");
        let sheet = String::from_utf8(sheet).unwrap();
        met.note(&call, &sheet);
        agrees_with_sessions(&call, &sheet);
    }
    println!("houses by turns, quotas and the planner's other calls: {met:?}");
    met.in_every_way();
}

/// Large pools, some vertices anchored, with as many lines as there may be.
#[test]
fn large_graphs() {
    let (mut met, mut random) = (Met::default(), Random(3141592653));
    for (n, m, number, share) in [(1000, 5000, 16, 20), (1024, 8192, 16, 1000), (1024, 1500, 5, 2), (1024, 3000, 13, 50)] {
        let anchored = (0..n).map(|_| random.one_in(share) as u8).collect();
        let pool = Pool { anchored, ..Pool::random(&mut random, n, m) };
        let houses: Vec<u16> = (0..n).map(|_| random.below(number) as u16).collect();
        let mut quotas = vec![0; number];
        (0..60).for_each(|_| quotas[random.below(number)] += 1);
        let call = Call::new(&pool, &houses, &quotas);
        met.note(&call, &call.compare_quick());
    }
    // two vertices in a house of 30 rounds, and a house of 30 with all the others
    let pool = Pool::random(&mut random, 1024, 2000);
    let houses: Vec<u16> = (0..1024).map(|v| (v % 512 == 7) as u16).collect();
    let call = Call::new(&pool, &houses, &[30, 30]);
    assert_eq!(call.room, 64320);
    let sheet = call.compare_quick();
    assert_eq!(names(&sheet).iter().flatten().count(), 32);
    met.note(&call, &sheet);
    println!("houses on large graphs: {met:?}");
    assert!(0 < met.nobody && 0 < met.lifted && 0 < met.redone && 0 < met.spent && 0 < met.emptied, "{met:?}");
}

/// The least net yield there is, and the greatest.
#[test]
fn least_and_greatest() {
    let star: Vec<u16> = (0..1024).map(|v| (v == 0) as u16).collect();
    let sheet = Call::new(&least_yield(), &star, &[1, 1]).compare_quick();
    assert_eq!(names(&sheet), [Some(0), None]);
    let all_but_one: Vec<u16> = (0..1024).map(|v| (v == 1023) as u16).collect();
    let sheet = Call::new(&greatest_yield(), &all_but_one, &[0, 1]).compare_quick();
    assert_eq!((names(&sheet), sheet.matches('+').count()), (vec![Some(1023)], 1023));
}

/// The sheet that the text-to-sheet call makes of so many rounds.
fn ordinary(pool: &Pool, rounds: u16) -> String {
    let mut sheet = vec![0; rounds as usize * (48 + pool.size())];
    assert_eq!(planner::text_to_sheet(&pool.text(rounds as usize), &mut sheet), Ok(sheet.len()));
    String::from_utf8(sheet).unwrap()
}

/// The sheet that the archive makes of an accepted call.
fn shared_sheet(pool: &Pool, houses: &[u16], quotas: &[u16]) -> String {
    let (answer, sheet) = Call::new(pool, houses, quotas).make();
    assert_eq!((answer.number, answer.first), (0, sheet.len() as u64), "{pool:?}");
    String::from_utf8(sheet).unwrap()
}

/// One house has the ordinary sheet, byte for byte; so has one of several that has all vertices, with a line with nobody left for each round
/// of the others behind it.
#[test]
fn one_house() {
    let (mut random, mut sheets, mut lines) = (Random(1779033703), 0, 0);
    let mut compare = |pool: &Pool, rounds: u16| {
        let (sheet, n) = (ordinary(pool, rounds), pool.size());
        assert_eq!(shared_sheet(pool, &vec![0; n], &[rounds]), sheet, "{pool:?}");
        assert_eq!(shared_sheet(pool, &vec![2; n], &[0, 0, rounds]), sheet, "{pool:?}");
        if rounds <= 58 {
            let dots = ".".repeat(n);
            let rest = [1, 2].map(|i| format!("(round {:02} (retain ----) (marks {dots}) (redone 0000))\n", rounds + i)).concat();
            assert_eq!(shared_sheet(pool, &vec![1; n], &[1, rounds, 1]), sheet.clone() + &rest, "{pool:?}");
        }
        sheets += 1;
        lines += sheet.lines().count();
    };
    for pool in small_pools(4) {
        (0..6).for_each(|rounds| compare(&pool, rounds));
    }
    for i in 0..200 {
        compare(&Pool::random_small(&mut random, 40), if i % 10 == 0 { 60 } else { i % 20 });
    }
    for (n, m, rounds) in [(1000, 5000, 20), (1024, 3000, 60)] {
        compare(&Pool::random(&mut random, n, m), rounds);
    }
    println!("{sheets} ordinary sheets of {lines} lines are those of one house");
    // 1,099 pools of up to 4 vertices with up to 5 rounds
    assert_eq!(sheets, 6 * 1_099 + 202);
}

/// The chain 0-1-2-3.
fn chain(anchored: [u8; 4]) -> Pool {
    Pool::of_edges(4, [(0, 1), (1, 2), (2, 3)], anchored.to_vec())
}

/// What a call is answered: whom the lines anchor, or the refusal's number and place.
fn names_of(call: &Call) -> Result<Vec<Option<usize>>, (u64, u64)> {
    call.compare().map(|sheet| names(&sheet)).map_err(|e| (e.number, e.place))
}

/// As many lines of the chain, its vertices all in house 0, or the refusal's number and place.
fn lines_of(quotas: &[u16]) -> Result<usize, (u64, u64)> {
    names_of(&Call::new(&chain([0; 4]), &[0; 4], quotas)).map(|names| names.len())
}

/// Houses from none to 40, and numbers of them that 8 or 16 bits would take for one from 1 to 16; without rounds, and with one.
#[test]
fn numbers_of_houses() {
    for number in (0..=40).chain([255, 256, 257, 272, 65535, 65536, 65537, 65552, 100000]) {
        let mut quotas = vec![0; number];
        let told = if (1..=16).contains(&number) { Ok(0) } else { Err((26, 0)) };
        assert_eq!(lines_of(&quotas), told, "{number}");
        let Some(last) = quotas.last_mut() else { continue };
        *last = 1;
        assert_eq!(lines_of(&quotas), told.map(|_| 1), "{number}");
    }
    // each vertex in a house of its own, from the last house down
    let sixteen = Pool::of_edges(16, [], vec![0; 16]);
    let houses: Vec<u16> = (0..16).rev().collect();
    assert_eq!(names_of(&Call::new(&sixteen, &houses, &[1; 16])), Ok((0..16).rev().map(Some).collect()));
}

/// So many equal quotas with some changed.
fn quotas(length: usize, each: u16, changes: &[(usize, u16)]) -> Vec<u16> {
    let mut quotas = vec![each; length];
    changes.iter().for_each(|&(i, quota)| quotas[i] = quota);
    quotas
}

/// 60 rounds in all, 61, and sums that 8, 16 or 32 bits, with a sign or without, would take for 60 or less; in lists of any length.
#[test]
fn sums_of_quotas() {
    for accepted in [quotas(1, 60, &[]), quotas(16, 0, &[(15, 60)]), quotas(2, 30, &[]), quotas(16, 4, &[(0, 0)]), quotas(3, 20, &[])] {
        assert_eq!(lines_of(&accepted), Ok(60), "{accepted:?}");
    }
    for pair in [[60, 1], [30, 31], [200, 56], [255, 1], [256, 0], [32768, 0], [32767, 32769], [65535, 0], [65535, 1], [65535, 61]] {
        assert_eq!(lines_of(&pair), Err((11, 0)), "{pair:?}");
        assert_eq!(lines_of(&[pair[1], pair[0]]), Err((11, 0)), "{pair:?}");
    }
    // the sum is tested before the number of houses
    for length in [17, 65536, 100000] {
        let last = length - 1;
        assert_eq!(lines_of(&quotas(length, 0, &[(last, 60)])), Err((26, 0)), "{length}");
        assert_eq!(lines_of(&quotas(length, 0, &[(last, 61)])), Err((11, 0)), "{length}");
        assert_eq!(lines_of(&quotas(length, 0, &[(0, 1), (8, 58), (last, 1)])), Err((26, 0)), "{length}");
        assert_eq!(lines_of(&quotas(length, 0, &[(0, 1), (8, 59), (last, 1)])), Err((11, 0)), "{length}");
    }
    // 65,537 times 65,535 is one less than 2 to the 32nd
    for last in [0, 1, 2, 61, 62, 65535] {
        assert_eq!(lines_of(&quotas(65538, 65535, &[(65537, last)])), Err((11, 0)), "{last}");
    }
    // above 2 to the 31st, and a wrapped sum of each 16 bits
    for length in [16, 17, 32769, 65536, 100000] {
        assert_eq!(lines_of(&quotas(length, 65535, &[])), Err((11, 0)), "{length}");
        assert_eq!(lines_of(&quotas(length, 32768, &[])), Err((11, 0)), "{length}");
    }
}

#[test]
fn no_vertices() {
    let none = Pool::of_edges(0, [], vec![]);
    let line = |i: usize| format!("(round {i:02} (retain ----) (marks ) (redone 0000))\n");
    for (number, quota) in [(1, 0), (1, 1), (1, 60), (2, 1), (3, 20), (16, 0), (16, 1), (16, 3)] {
        let lines: String = (1..=number * quota).map(line).collect();
        assert_eq!(Call::new(&none, &[], &vec![quota as u16; number]).compare(), Ok(lines), "{number} {quota}");
    }
    let told = |houses: &[u16], quotas: &[u16], room: usize| names_of(&Call { room, ..Call::new(&none, houses, quotas) });
    assert_eq!(told(&[0], &[1], 48), Err((9, 0)));
    assert_eq!(told(&[], &[61], 9999), Err((11, 0)));
    assert_eq!(told(&[], &[], 0), Err((26, 0)));
    assert_eq!(told(&[], &[1; 17], 0), Err((26, 0)));
    assert_eq!(told(&[], &[1, 1], 95), Err((12, 0)));
    assert_eq!(told(&[], &[1, 1], 96), Ok(vec![None; 2]));
    assert_eq!(told(&[], &[0], 0), Ok(vec![]));
}

/// Houses from the number of quotas up, also such as 8 bits would take for one below it, at each vertex, anchored or not; of several the
/// lowest vertex is told.
#[test]
fn no_such_house() {
    for (number, anchored) in [1, 2, 3, 15, 16].into_iter().flat_map(|number| [(number, 0), (number, 1)]) {
        let told = |houses: [u16; 4]| {
            let names = names_of(&Call::new(&chain([anchored; 4]), &houses, &vec![1; number as usize]));
            names.map(|names| names.len())
        };
        let right = [0, number - 1, number / 2, number - 1];
        assert_eq!(told(right), Ok(number as usize));
        for (v, house) in (0..4).flat_map(|v| [number, number + 1, 17, 255, 256, 255 + number, 32768, 65535].map(|house| (v, house))) {
            let wrong_where = |is_wrong: fn(usize, usize) -> bool| from_fn(|u| if is_wrong(u, v) { house } else { right[u] });
            for houses in [wrong_where(|u, v| u == v), wrong_where(|u, v| u >= v)] {
                assert_eq!(told(houses), Err((27, v as u64)), "{houses:?} {number}");
            }
        }
    }
}

/// Each number of bytes up to what the sheet takes, and some more.
#[test]
fn room() {
    let call = Call::new(&chain([1, 0, 0, 0]), &[0, 0, 1, 1], &[1, 2]);
    assert_eq!(call.room, 3 * 52);
    for room in (0..160).chain([1000, 64319, 64320, 64321, 100000]) {
        let told = if room < 156 { Err((12, 0)) } else { Ok(vec![Some(1), Some(3), Some(2)]) };
        assert_eq!(names_of(&Call { room, ..call.clone() }), told, "{room}");
    }
    for room in [0, 1, 52, 100] {
        assert_eq!(names_of(&Call { room, quotas: vec![0, 0], ..call.clone() }), Ok(vec![]), "{room}");
    }
    let longest = Call::new(&Pool::of_edges(1024, [], vec![0; 1024]), &[0; 1024], &[60]);
    assert_eq!(longest.compare_quick().len(), 64320);
    let one_less = Call { room: 64319, ..longest };
    assert_eq!(names_of(&one_less), Err((12, 0)));
}

/// In the order of the tests, behind those of the table.
const FAULTS: [Fault<Call>; 8] = [
    (9, 0, |call| call.pool.anchored.truncate(7)),
    (9, 0, |call| call.houses.truncate(7)),
    (9, 0, |call| call.houses.resize(9, 0)),
    (10, 4, |call| call.pool.anchored[4] = 2),
    (11, 0, |call| call.quotas[1] = 57),
    (26, 0, |call| call.quotas.resize(17, 0)),
    (27, 5, |call| call.houses[5] = 17),
    (12, 0, |call| call.room -= 1),
];

#[test]
fn several_faults() {
    let call = Call::new(&faults::chain(vec![0; 8]), &[0, 1, 2, 0, 1, 2, 0, 1], &[2, 1, 2]);
    assert_eq!(names_of(&call).map(|names| names.len()), Ok(5));
    first_is_told(&faults(&FAULTS), &call, names_of);
}

/// No house at all, with what comes before and behind it.
#[test]
fn no_house() {
    let call = Call { room: 0, ..Call::new(&chain([0; 4]), &[0, 0, 9, 0], &[]) };
    assert_eq!(names_of(&call), Err((26, 0)));
    assert_eq!(names_of(&Call { pool: chain([0, 1, 2, 3]), ..call.clone() }), Err((10, 2)));
    assert_eq!(names_of(&Call { houses: vec![], ..call }), Err((9, 0)));
}

/// Tables and bytes that break a rule, with houses of the right length and of a wrong one, and with quotas of which the sum is too great.
#[test]
fn broken_pools() {
    let mut met = BTreeMap::new();
    for (pool, e) in broken() {
        for (length, quota) in [(0, 1), (0, 61), (1, 1), (1, 61)] {
            let told = if length == 1 && e.number > 8 { (9, 0) } else { (e.number, e.place) };
            assert_eq!(names_of(&Call::new(&pool, &vec![0; pool.size() + length], &[quota])), Err(told), "{pool:?}");
            *met.entry(told.0).or_insert(0) += 1;
        }
    }
    assert!(met.into_keys().eq(1..=10));
}

/// A call with a fault in its numbers or in its lengths, on pools of which half are damaged too.
fn damaged(random: &mut Random) -> Call {
    let mut pool = Pool::random_small(random, 6);
    let (mut houses, mut quotas) = pool.random_houses(random, 8);
    if random.one_in(2) {
        pool = pool.damaged(random);
    }
    match random.below(10) {
        0 => houses.push(random.below(3) as u16),
        1 => {
            houses.pop();
        }
        2 => quotas.push(random.below(70) as u16),
        3 => quotas.truncate(random.below(2)),
        4 => quotas.resize(16 + random.below(3), 0),
        5 if !houses.is_empty() => {
            let v = random.below(houses.len());
            houses[v] = (quotas.len() + random.below(2)) as u16;
        }
        _ => {}
    }
    let call = Call::new(&pool, &houses, &quotas);
    Call { room: (call.room + random.below(3)).saturating_sub(random.below(2)), ..call }
}

/// Numbers drawn without a rule, in half of the lists 0 throughout.
fn garbage(random: &mut Random) -> Call {
    let mut list = |most: usize| -> Vec<u16> {
        let shift = random.below(17).max(16 * random.below(2));
        (0..random.below(most)).map(|_| (random.below(65536) >> shift) as u16).collect()
    };
    let (starts, links, anchored, houses, quotas) = (list(4), list(3), list(3), list(3), list(20));
    let anchored = anchored.into_iter().map(|number| number as u8).collect();
    Call { pool: Pool { starts, links, anchored }, houses, quotas, room: random.below(3000) }
}

#[test]
fn damaged_calls() {
    let (mut random, mut met) = (Random(2685821657736338717), [BTreeMap::new(), BTreeMap::new()]);
    for _ in 0..if pools::long() { 1000000 } else { 100000 } {
        for (make, met) in [damaged, garbage].into_iter().zip(&mut met) {
            *met.entry(make(&mut random).compare().err().map_or(0, |e| e.number)).or_insert(0) += 1;
        }
    }
    println!("calls with damaged lists and pools: {:?}; with numbers drawn without a rule: {:?}", met[0], met[1]);
    let mut numbers = DAMAGES.into_iter().chain([0, 11, 12, 26, 27]);
    assert!(numbers.all(|number| met[0].get(&number) > Some(&100)));
    assert!([0, 1, 4, 5, 9, 10, 11, 12, 26, 27].into_iter().all(|number| met[1].get(&number) > Some(&20)));
}

/// docs/HOUSES.md: what it says of the chain of four riders is what the planner answers, and the naive working; and so the sheet that it shows.
#[test]
fn houses_page() {
    let (mut sheets, mut refused) = (0, BTreeMap::new());
    let numbers = |cell: &str| cell.split(' ').filter_map(|word| word.parse().ok()).collect::<Vec<u16>>();
    for row in page_examples("HOUSES.md") {
        let [anchored, houses, quotas, answer] = row.as_slice() else { panic!("{row:?}") };
        let pool = chain(numbers(anchored).into_iter().map(|byte| byte as u8).collect::<Vec<u8>>().try_into().unwrap());
        let told = names_of(&Call::new(&pool, &numbers(houses), &numbers(quotas)));
        let name = |name: &Option<usize>| name.map_or("----".into(), |x| format!("{x:04}"));
        let said = match &told {
            Ok(names) => names.iter().map(name).collect::<Vec<String>>().join(" "),
            Err((number, place)) => format!("{number} {place}"),
        };
        assert_eq!(said, *answer, "{row:?}");
        match told {
            Ok(_) => sheets += 1,
            Err((number, _)) => *refused.entry(number).or_insert(0) += 1,
        }
    }
    assert!(sheets >= 8);
    assert!(refused.into_keys().eq([9, 10, 11, 26, 27]));
    let shown = Call::new(&chain([0; 4]), &[0, 1, 1, 0], &[3, 1]).compare().unwrap();
    assert!(page("HOUSES.md").contains(&format!("```\n{shown}```")), "{shown}");
}
