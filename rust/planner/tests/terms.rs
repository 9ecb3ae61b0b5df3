//! The first day under a level, against the levels of every day: worked out naively on all small graphs, with all terms over a few days, and
//! on many random ones; quickly on large ones; and by the planner's other calls. Its refusals, several at once too. PLANNER_LONG=1 runs
//! more.

mod shared;

use planner::{FirstDay, Refusal, Size};
use pools::{Pool, Random};
use reference::{quick, Term};
use shared::faults::{self, faults, first_is_told, Fault};
use shared::terms::{handed, Call};
use shared::{broken, fresh_levels, page_examples, plain, strangers, table_size, DAMAGES};
use std::cmp::Reverse;
use std::collections::BTreeMap;
use std::ops::Range;

/// What works out the levels on a day.
type Working = fn(&Pool, &[Term], u16) -> Vec<u16>;

const NAIVE: Working = |pool, terms, day| {
    let graph = reference::check_table(&pool.starts, &pool.links).unwrap();
    reference::levels_on(&graph, terms, day)
};

const QUICK: Working = |pool, terms, day| quick::Day::default().levels(plain(pool), terms, day).to_vec();

/// The planner's fresh working, handed the bytes of the day.
const FRESH: Working = |pool, terms, day| {
    let anchored = reference::anchored_on(pool.size(), terms, day).into_iter().map(u8::from).collect();
    fresh_levels(&Pool { anchored, ..pool.clone() })
};

/// A table and terms, and the levels on each of some days.
struct Case<'a> {
    pool: &'a Pool,
    size: Size,
    terms: Vec<planner::Term>,
    days: Range<u16>,
    levels: Vec<Vec<u16>>,
}

impl Case<'_> {
    fn new<'a>(pool: &'a Pool, terms: &[Term], days: Range<u16>, working: Working) -> Case<'a> {
        let levels = days.clone().map(|day| working(pool, terms, day)).collect();
        Case { pool, size: table_size(pool).unwrap(), terms: handed(terms), days, levels }
    }

    fn level(&self, day: u16, x: usize) -> u16 {
        self.levels[(day - self.days.start) as usize][x]
    }
}

/// How many calls were accepted, and what they answered: the span's first day; a later one, on all of which a term ends, and of these on
/// how many another one begins; none, and of these how many times because the span has no day, and how many times with x anchored on all
/// of its days.
#[derive(Default, PartialEq, Debug)]
struct Answered {
    calls: usize,
    at_once: usize,
    later: usize,
    later_with_start: usize,
    none: usize,
    no_days: usize,
    all_anchored: usize,
}

impl Answered {
    /// The call about x in a span of a case's days; the day that it answers.
    fn ask(&mut self, case: &Case, days: Range<u16>, x: usize, k: u16) -> Option<u16> {
        let Case { pool: Pool { starts, links, .. }, size, terms, .. } = case;
        let day = days.clone().find(|&day| case.level(day, x) < k);
        let answer = planner::first_day(starts, links, terms, days.clone(), x, k);
        assert_eq!(answer, Ok(FirstDay { day, size: *size }), "{:?} {terms:?} {days:?} {x} {k}", case.pool);
        self.note(case, days, x, day);
        day
    }

    /// A term that begins lowers nobody's level: a later day than the first is one on which a term ends.
    fn note(&mut self, case: &Case, mut days: Range<u16>, x: usize, day: Option<u16>) {
        self.calls += 1;
        match day {
            Some(day) if day == days.start => self.at_once += 1,
            Some(day) => {
                assert!(case.terms.iter().any(|term| term.end == day), "{:?} {:?} {days:?} {x} {day}", case.pool, case.terms);
                self.later += 1;
                self.later_with_start += case.terms.iter().any(|term| term.first == day) as usize;
            }
            None => {
                self.none += 1;
                self.no_days += days.is_empty() as usize;
                self.all_anchored += (!days.is_empty() && days.all(|day| case.level(day, x) == 65535)) as usize;
            }
        }
    }

    /// Every vertex, levels up to 4 and the greatest, in spans of the case's days.
    fn ask_all(&mut self, case: &Case, spans: &[Range<u16>]) {
        for x in 0..case.pool.size() {
            for k in [0, 1, 2, 3, 4, 65535] {
                for days in spans {
                    self.ask(case, days.clone(), x, k);
                }
            }
        }
    }

    /// Some of each kind.
    fn in_every_way(&self) {
        let Answered { at_once, later, later_with_start, none, no_days, all_anchored, .. } = *self;
        assert!(0 < later_with_start && later_with_start < later && 0 < at_once, "{self:?}");
        assert!(0 < no_days && 0 < all_anchored && no_days + all_anchored < none, "{self:?}");
    }
}

/// Every span that begins and ends on the days from 0 to the last, with reversed ones and those of no day.
fn all_spans(last: u16) -> Vec<Range<u16>> {
    (0..=last).flat_map(|from| (0..=last).map(move |until| from..until)).collect()
}

/// Every term over the days 1 and 2: three for each vertex.
fn all_terms(n: usize) -> Vec<Term> {
    (0..n as u16).flat_map(|vertex| [(1, 2), (1, 3), (2, 3)].map(|(first, end)| Term { vertex, first, end })).collect()
}

/// Every list of no term or one, and every list of two.
fn all_lists(n: usize) -> [Vec<Vec<Term>>; 2] {
    let terms = all_terms(n);
    let one = terms.iter().map(|&term| vec![term]);
    let two = (0..terms.len()).flat_map(|i| terms[i..].iter().map(move |&other| (i, other))).map(|(i, other)| vec![other, terms[i]]);
    [[vec![]].into_iter().chain(one).collect(), two.collect()]
}

/// Whether every list of two terms is tried on a graph of 4 vertices: a chain, a ring, a star, three of one level with one of a lower, all
/// joined.
fn takes_two_terms(pool: &Pool) -> bool {
    let graphs: [&[(usize, usize)]; 5] = [
        &[(0, 1), (1, 2), (2, 3)],
        &[(0, 1), (0, 3), (1, 2), (2, 3)],
        &[(0, 1), (0, 2), (0, 3)],
        &[(0, 1), (0, 2), (0, 3), (1, 2)],
        &[(0, 1), (0, 2), (0, 3), (1, 2), (1, 3), (2, 3)],
    ];
    graphs.contains(&pool.edges().as_slice())
}

/// What is answered on all graphs of up to 4 vertices with up to one term, and with two terms on those of up to 3 vertices and on five of 4.
/// The figures were counted apart from the tests.
const ONE_TERM: Answered =
    Answered { calls: 540_000, at_once: 125_820, later: 5_430, later_with_start: 0, none: 408_750, no_days: 324_000, all_anchored: 8_550 };
const TWO_TERMS: Answered =
    Answered { calls: 409_500, at_once: 82_125, later: 8_332, later_with_start: 822, none: 319_043, no_days: 245_700, all_anchored: 14_196 };

/// Spans within four days, terms within two of these. In a long run two terms on all graphs.
#[test]
fn all_small_graphs() {
    let ([mut one, mut two, mut rest], spans) = ([0; 3].map(|_| Answered::default()), all_spans(4));
    for pool in (0..=4).flat_map(Pool::all_free) {
        let ask = |answered: &mut Answered, lists: &[Vec<Term>]| {
            lists.iter().for_each(|terms| answered.ask_all(&Case::new(&pool, terms, 0..4, NAIVE), &spans));
        };
        let [up_to_one, of_two] = all_lists(pool.size());
        ask(&mut one, &up_to_one);
        match pool.size() < 4 || takes_two_terms(&pool) {
            true => ask(&mut two, &of_two),
            false if pools::long() => ask(&mut rest, &of_two),
            false => {}
        }
    }
    println!("first days on all graphs of up to 4 vertices with up to one term: {one:?}; with two terms: {two:?}, {rest:?}");
    assert_eq!((one, two), (ONE_TERM, TWO_TERMS));
    // the other 59 graphs of 4 vertices, with 78 lists each
    assert!(!pools::long() || rest.calls == 59 * 78 * 4 * 6 * 25);
}

/// All graphs of up to 4 vertices with random lists of up to 8 terms.
#[test]
fn small_graphs_with_random_terms() {
    let (mut answered, mut random) = (Answered::default(), Random(2862933555777941757));
    for pool in (0..=4).flat_map(Pool::all_free) {
        for _ in 0..if pools::long() { 100 } else { 10 } {
            let length = random.below(9);
            let terms = pool.random_terms(&mut random, length, 6);
            let spans: Vec<Range<u16>> = (0..8).map(|_| random.below(12) as u16..random.below(19) as u16).collect();
            answered.ask_all(&Case::new(&pool, &terms, 0..18, NAIVE), &spans);
        }
    }
    println!("first days on all graphs of up to 4 vertices with random terms: {answered:?}");
    answered.in_every_way();
}

/// The terms so many days later.
fn later(terms: &[Term], by: u16) -> Vec<Term> {
    terms.iter().map(|&Term { vertex, first, end }| Term { vertex, first: first + by, end: end + by }).collect()
}

/// Terms of random pools that meet, overlap, are repeated, begin before the span, end after it or lie outside: from day 0 on, or up to day
/// 65,535. The answer is the naive one, and that of the planner's fresh working of each day.
#[test]
fn random_graphs() {
    let (mut answered, mut random) = (Answered::default(), Random(1181783497276652981));
    for i in 0..if pools::long() { 40000 } else { 4000 } {
        let mut pool = Pool::random_small(&mut random, if i % 20 == 0 { 30 } else { 12 });
        pool.anchored.clear();
        let length = random.below(3 * pool.size() + 1);
        let terms = pool.random_terms(&mut random, length, 12);
        let last = terms.iter().map(|term| term.end).max().unwrap_or(0).max(20);
        let by = if random.one_in(2) { 0 } else { 65535 - last };
        let terms = later(&terms, by);
        let case = Case::new(&pool, &terms, by..by + last, FRESH);
        for x in 0..pool.size() {
            let (mut from, mut until) = (by + random.below(20) as u16, by + random.below(last as usize + 1) as u16);
            if until < from && !random.one_in(4) {
                (from, until) = (until, from);
            }
            let k = [random.below(5) as u16, random.below(65536) as u16][random.one_in(8) as usize];
            let day = answered.ask(&case, from..until, x, k);
            assert_eq!(Call::new(&pool, &terms, from..until, x, k).compare(), Ok(FirstDay { day, size: case.size }));
        }
    }
    println!("first days on random graphs: {answered:?}");
    answered.in_every_way();
}

/// The first day on which x has its greatest level, anchored days apart.
fn highest(case: &Case, x: usize) -> u16 {
    let free = case.days.clone().filter(|&day| case.level(day, x) != 65535);
    free.max_by_key(|&day| (case.level(day, x), Reverse(day))).unwrap()
}

/// Large pools with as many terms as there may be, over 600 days: in all of them under the least level that x has on a day, and under one
/// more; from the day of its greatest level on under that one; in spans drawn at random; and about a vertex so long as a term of its own
/// lasts, and longer. Few levels change in such pools: every second x is one whose level does.
#[test]
fn large_graphs() {
    let (mut answered, mut random) = (Answered::default(), Random(1013904223));
    for (n, m) in [(1000, 5000), (1024, 8192), (1024, 1500)] {
        let pool = Pool::random(&mut random, n, m);
        let terms = pool.random_terms(&mut random, 256, 300);
        let case = Case::new(&pool, &terms, 0..600, QUICK);
        assert!((0..600).step_by(60).all(|day| FRESH(&pool, &terms, day) == case.levels[day as usize]));
        let least = |x: usize| case.days.clone().map(|day| case.level(day, x)).min().unwrap();
        let moving: Vec<usize> = (0..n).filter(|&x| least(x) < case.level(highest(&case, x), x)).collect();
        for i in 0..if pools::long() { 200 } else { 30 } {
            let x = if i % 2 == 0 { random.below(n) } else { moving[random.below(moving.len())] };
            let (drawn, own) = (random.below(600) as u16..random.below(601) as u16, terms[random.below(256)]);
            assert_eq!(answered.ask(&case, 0..600, x, least(x)), None);
            assert!(answered.ask(&case, 0..600, x, least(x) + 1).is_some());
            answered.ask(&case, highest(&case, x)..600, x, case.level(highest(&case, x), x));
            answered.ask(&case, drawn, x, least(x) + random.below(4) as u16);
            assert_eq!(answered.ask(&case, own.first..own.end.min(600), own.vertex as usize, 65535), None);
            answered.ask(&case, own.first..600, own.vertex as usize, 65535);
        }
    }
    println!("first days on large graphs with 256 terms: {answered:?}");
    answered.in_every_way();
}

/// The chain 0-1-2-3, in which 1 and 2 have level 2 so long as 0 and 3 are anchored, and else level 1.
fn chain() -> Pool {
    Pool::of_edges(4, [(0, 1), (1, 2), (2, 3)], vec![])
}

/// A call about x of the chain under k, terms as vertex, first day and end day.
fn on_chain(terms: &[[u16; 3]], days: Range<u16>, x: usize, k: u16) -> Call {
    let terms: Vec<Term> = terms.iter().map(|&[vertex, first, end]| Term { vertex, first, end }).collect();
    Call::new(&chain(), &terms, days, x, k)
}

/// The day that a call answers, or the refusal's number and place.
fn day_of(call: &Call) -> Result<Option<u16>, (u64, u64)> {
    call.compare().map(|answer| answer.day).map_err(|e| (e.number, e.place))
}

#[test]
fn first_and_last_days() {
    let day = |terms: &[[u16; 3]], days, x, k| day_of(&on_chain(terms, days, x, k));
    let all = [[0, 0, 65535], [3, 0, 65535]];
    assert_eq!(day(&all, 0..65535, 1, 2), Ok(None));
    assert_eq!(day(&all, 0..65535, 1, 3), Ok(Some(0)));
    assert_eq!(day(&all, 65534..65535, 1, 3), Ok(Some(65534)));
    assert_eq!(day(&all, 0..65535, 0, 65535), Ok(None));
    assert_eq!(day(&[[0, 0, 65535], [3, 0, 65534]], 0..65535, 1, 2), Ok(Some(65534)));
    assert_eq!(day(&[[0, 0, 65535], [3, 0, 65534]], 0..65534, 1, 2), Ok(None));
    assert_eq!(day(&[[0, 0, 65535], [3, 0, 1]], 0..65535, 1, 2), Ok(Some(1)));
    assert_eq!(day(&[[0, 0, 65535], [3, 65534, 65535]], 65534..65535, 1, 2), Ok(None));
    assert_eq!(day(&[[0, 0, 65535], [3, 65534, 65535]], 65533..65535, 1, 2), Ok(Some(65533)));
    assert_eq!(day(&[[0, 0, 1]], 0..65535, 0, 65535), Ok(Some(1)));
    assert_eq!(day(&[[0, 0, 1]], 0..1, 0, 65535), Ok(None));
    for (from, until) in [(0, 0), (65535, 65535), (65535, 0), (1, 0), (65535, 65534)] {
        assert_eq!(day(&[], from..until, 1, 65535), Ok(None));
        assert_eq!(day(&all, from..until, 1, 65535), Ok(None));
    }
    // no term begins on the last day, because none ends after it
    for end in [0, 1, 65534, 65535] {
        assert_eq!(day(&[[0, 0, 9], [1, 65535, end]], 0..9, 1, 2), Err((25, 1)));
    }
    assert_eq!(day(&[[0, 0, 0], [1, 0, 0]], 0..9, 1, 2), Err((25, 0)));
}

/// As many terms as there may be and more, also where their number has more than 16 bits; a vertex that is none, and where it stands.
#[test]
fn many_terms() {
    let day = |terms: &[[u16; 3]], x| day_of(&on_chain(terms, 3..400, x, 2));
    // vertex 3 has one term after the other, each of one day, so that none can be passed over
    let one_by_one = |length: usize| -> Vec<[u16; 3]> {
        let day = |i: usize| (i % 60000) as u16;
        [[0, 0, 300]].into_iter().chain((1..length).map(|i| [3, day(i), day(i) + 1])).collect()
    };
    assert_eq!(day(&one_by_one(255), 1), Ok(Some(255)));
    assert_eq!(day(&one_by_one(256), 1), Ok(Some(256)));
    for length in [257, 258, 512, 65535, 65536, 65537, 65792] {
        assert_eq!(day(&one_by_one(length), 1), Err((24, 0)), "{length}");
    }
    let with = |length: usize, changes: &[(usize, [u16; 3])]| {
        let mut terms = one_by_one(length);
        changes.iter().for_each(|&(i, term)| terms[i] = term);
        terms
    };
    // every vertex is looked at before the terms are counted, the first by position is told, and before x
    assert_eq!(day(&with(400, &[(300, [4, 0, 1])]), 1), Err((15, 4)));
    assert_eq!(day(&with(400, &[(300, [7, 0, 1]), (399, [5, 0, 1])]), 9), Err((15, 7)));
    assert_eq!(day(&with(65792, &[(65791, [65535, 9, 1])]), 1), Err((15, 65535)));
    assert_eq!(day(&with(256, &[(0, [6, 0, 1]), (255, [4, 0, 1])]), 1), Err((15, 6)));
    assert_eq!(day(&with(400, &[(0, [0, 1, 1])]), 9), Err((15, 9)));
    assert_eq!(day(&with(400, &[(0, [0, 1, 1])]), 1), Err((24, 0)));
    assert_eq!(day(&with(256, &[(255, [0, 1, 1])]), 1), Err((25, 255)));
    assert_eq!(day(&with(256, &[(254, [0, 9, 1]), (255, [0, 1, 1])]), 1), Err((25, 254)));
}

/// Numbers that are no vertex's, as x and as far as they have 16 bits in a term; with no vertices all are.
#[test]
fn no_vertex() {
    for x in strangers(4).into_iter().chain([65535]) {
        assert_eq!(day_of(&on_chain(&[[0, 0, 9]], 0..9, x, 2)), Err((15, x as u64)));
        let Ok(vertex) = u16::try_from(x) else { continue };
        assert_eq!(day_of(&on_chain(&[[0, 0, 9], [vertex, 0, 9]], 0..9, 1, 2)), Err((15, x as u64)));
    }
    let empty = Pool::of_edges(0, [], vec![]);
    for x in strangers(0) {
        assert_eq!(day_of(&Call::new(&empty, &[], 0..9, x, 2)), Err((15, x as u64)));
        assert_eq!(day_of(&Call::new(&empty, &[Term { vertex: 7, first: 9, end: 9 }], 0..9, x, 2)), Err((15, 7)));
        assert_eq!(day_of(&Call { firsts: vec![1], ..Call::new(&empty, &[], 0..9, x, 2) }), Err((9, 0)));
    }
}

/// In the order of the tests, behind those of the table; those of 9 are lists of unequal length in three ways.
const FAULTS: [Fault<Call>; 7] = [
    (9, 0, |call| call.vertices.truncate(call.vertices.len() - 1)),
    (9, 0, |call| call.firsts.push(7)),
    (9, 0, |call| call.ends.truncate(call.ends.len() - 1)),
    (15, 8, |call| call.vertices[1] = 8),
    (15, 9, |call| call.x = 9),
    (24, 0, |call| [&mut call.vertices, &mut call.firsts, &mut call.ends].into_iter().for_each(|list| list.resize(257, 7))),
    (25, 2, |call| call.ends[2] = call.firsts[2]),
];

#[test]
fn several_faults() {
    let terms = [[0, 0, 9], [7, 1, 8], [5, 2, 4]].map(|[vertex, first, end]| Term { vertex, first, end });
    let call = Call::new(&faults::chain(vec![]), &terms, 1..20, 3, 2);
    assert_eq!(day_of(&call), Ok(Some(8)));
    first_is_told(&faults(&FAULTS), &call, day_of);
}

/// Every way for three lists to be of unequal length, up to 3 terms, and of 256 and 257; without terms too where they are equal.
#[test]
fn unequal_lists() {
    let mut unequal = 0;
    let lengths = || [0, 1, 2, 3, 256, 257];
    for [a, b, c] in lengths().into_iter().flat_map(|a| lengths().into_iter().flat_map(move |b| lengths().map(|c| [a, b, c]))) {
        let call = Call { vertices: vec![3; a], firsts: vec![0; b], ends: vec![6; c], ..on_chain(&[], 0..9, 3, 2) };
        let told = match (a == b && b == c, a) {
            (false, _) => Err((9, 0)),
            (true, 0) => Ok(Some(0)),
            (true, 257) => Err((24, 0)),
            (true, _) => Ok(Some(6)),
        };
        unequal += told.is_err() as usize;
        assert_eq!(day_of(&call), told, "{a} {b} {c}");
        assert_eq!(day_of(&Call { x: 4, ..call }), if told == Err((9, 0)) { told } else { Err((15, 4)) });
    }
    // of 6 * 6 * 6 all but 6, and 257 three times
    assert_eq!(unequal, 216 - 6 + 1);
}

/// Tables that break a rule; the bytes have no part in the call.
#[test]
fn broken_tables() {
    let mut met = BTreeMap::new();
    for (pool, e) in broken() {
        for x in [0, pool.size(), usize::MAX] {
            let call = Call { vertices: vec![9], ..Call::new(&pool, &[], 0..9, x, 2) };
            let told = if e.number < 9 { e } else { Refusal { number: 9, place: 0 } };
            assert_eq!(call.compare(), Err(told), "{pool:?} {x}");
            *met.entry(told.number).or_insert(0) += 1;
        }
    }
    assert!(met.into_keys().eq(1..=9));
}

/// Lists of a call, each with a fault in some of its numbers or in its length, on tables of which half are damaged too.
fn damaged(random: &mut Random) -> Call {
    let mut pool = Pool::random_small(random, 6);
    if random.one_in(2) {
        pool = pool.damaged(random);
    }
    let (n, length) = (pool.size(), random.below(6));
    let list = |random: &mut Random, length: usize| -> Vec<u16> { (0..length).map(|_| random.below(8) as u16).collect() };
    let [vertices, firsts, ends] = [0; 3].map(|_| {
        let other = if random.one_in(6) { random.below(6) } else { length };
        list(random, other)
    });
    let is_mended = random.one_in(2);
    let vertices = vertices.into_iter().map(|v| if is_mended { v % n.max(1) as u16 } else { v }).collect();
    let ends = ends.into_iter().map(|end| if random.one_in(4) { end } else { end + 8 }).collect();
    let (days, x) = (random.below(20) as u16..random.below(20) as u16, if random.one_in(4) { random.vertex(n) } else { random.below(n.max(1)) });
    Call { pool, vertices, firsts, ends, days, x, k: random.below(4) as u16 }
}

/// Numbers drawn without a rule.
fn garbage(random: &mut Random) -> Call {
    let mut list = |most: usize| -> Vec<u16> { (0..random.below(most)).map(|_| (random.below(65536) >> random.below(17)) as u16).collect() };
    let (starts, links, [vertices, firsts, ends]) = (list(4), list(4), [0; 3].map(|_| list(3)));
    let (days, x, k) = (random.below(65536) as u16..random.below(65536) as u16, random.0 as usize >> random.below(64), random.below(65536) as u16);
    Call { pool: Pool { starts, links, anchored: vec![] }, vertices, firsts, ends, days, x, k }
}

#[test]
fn damaged_calls() {
    let (mut random, mut met) = (Random(3935559000370003845), [BTreeMap::new(), BTreeMap::new()]);
    for _ in 0..if pools::long() { 1000000 } else { 100000 } {
        for (make, met) in [damaged, garbage].into_iter().zip(&mut met) {
            *met.entry(make(&mut random).compare().err().map_or(0, |e| e.number)).or_insert(0) += 1;
        }
    }
    println!("calls with damaged lists and tables: {:?}; with numbers drawn without a rule: {:?}", met[0], met[1]);
    let mut numbers = DAMAGES.into_iter().filter(|&number| number != 10).chain([0, 15, 25]);
    assert!(numbers.all(|number| met[0].get(&number) > Some(&100)));
    assert!([1, 4, 5, 9, 15].into_iter().all(|number| met[1].get(&number) > Some(&0)));
}

/// docs/TERMS.md: what it says of the chain of four riders is what the planner answers, and the naive working.
#[test]
fn terms_page() {
    let (mut days, mut refused) = ([0; 2], BTreeMap::new());
    for row in page_examples("TERMS.md") {
        let [terms, span, x, k, answer] = row.as_slice() else { panic!("{row:?}") };
        let numbers = |cell: &str| cell.split([' ', ',']).filter_map(|word| word.parse().ok()).collect::<Vec<u16>>();
        let terms: Vec<[u16; 3]> = numbers(terms).chunks(3).map(|term| term.try_into().unwrap()).collect();
        let [from, until, x, k] = [span, x, k].map(|cell| numbers(cell)).concat()[..] else { panic!("{row:?}") };
        let told = day_of(&on_chain(&terms, from..until, x as usize, k));
        let said = match told {
            Ok(Some(day)) => format!("day {day}"),
            Ok(None) => "none".into(),
            Err((number, place)) => format!("{number} {place}"),
        };
        assert_eq!(said, *answer, "{row:?}");
        match told {
            Ok(day) => days[day.is_some() as usize] += 1,
            Err((number, _)) => *refused.entry(number).or_insert(0) += 1,
        }
    }
    assert!(days.into_iter().all(|count| count >= 3));
    assert!(refused.into_keys().eq([15, 25]));
}
