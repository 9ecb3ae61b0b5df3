//! The ceiling of a search against the recursion that document 02 states, and against the planner's own search: on all small graphs and
//! many random ones, with right and with wrong lengths, sheets and tables; large graphs against walks counted forwards. Whom a round cannot
//! choose because of the ceiling, by the planner's own calls alone. PLANNER_LONG=1 runs more.

mod shared;

use planner::{Bounded, Found, Refusal};
use pools::{Pool, Random};
use reference::quick;
use shared::cases::{Case, WRONG_ENTRIES};
use shared::faults::{self, faults, first_is_told, Fault, OnTable};
use shared::sheets::{Every, OnSheet};
use shared::{broken, fresh_levels, input, large_pools, page_examples, small_pools, DAMAGES};
use std::collections::BTreeMap;

/// Of the accepted calls: how many answered 0, more than the search reaches, more than it lifts, and the cap; and the sums of what they
/// answered and of what the searches reached and lifted.
#[derive(Default, PartialEq, Debug)]
struct Told {
    none: usize,
    above_reached: usize,
    above_lifted: usize,
    capped: usize,
    ceilings: usize,
    reached: usize,
    lifted: usize,
}

/// How many calls gave each number, 0 where it accepted; and what the accepted ones told.
#[derive(Default, PartialEq, Debug)]
struct Compared {
    answers: BTreeMap<u64, usize>,
    told: Told,
}

impl Compared {
    fn met(&self, number: u64) -> bool {
        self.answers.contains_key(&number)
    }

    /// The call for x on some sheet. The planner's own search, with right room for its marks, is refused with the same number and place, or
    /// reaches and lifts no more.
    fn ceiling(&mut self, case: &Case, sheet: &[Vec<u16>; 2], x: usize) -> Result<u16, Refusal> {
        let expected = case.checked(sheet).and_then(|size| {
            let defined = case.lent(&[])?;
            match case.pool.anchored.get(x) {
                None => Err(Refusal { number: 15, place: x as u64 }),
                Some(1) => Err(Refusal { number: 16, place: x as u64 }),
                Some(_) => Ok(Bounded { ceiling: (defined.working.ceiling)(case.pool, defined, x), size }),
            }
        });
        let (pool, [levels, layers], mut marks) = (case.pool.clone(), sheet.clone(), vec![0; case.pool.size()]);
        let answer = planner::ceiling(input(&pool), &levels, &layers, x);
        assert_eq!(answer, expected, "{pool:?} {x} {sheet:?}");
        assert!(pool == *case.pool && [&levels, &layers] == sheet.each_ref());
        let found = planner::followers(input(&pool), &levels, &layers, x, &mut marks);
        assert_eq!(answer.map(|bounded| bounded.size), found.map(|found| found.size), "{pool:?} {x} {sheet:?}");
        if let (Ok(Bounded { ceiling, .. }), Ok(Found { lifted, reached, .. })) = (answer, found) {
            let ceiling = ceiling as usize;
            assert!(reached <= ceiling && lifted <= ceiling, "{pool:?} {x}: {lifted} lifted, {reached} reached, ceiling {ceiling}");
            self.told.none += (ceiling == 0) as usize;
            self.told.above_reached += (ceiling > reached) as usize;
            self.told.above_lifted += (ceiling > lifted) as usize;
            self.told.capped += (ceiling == 65535) as usize;
            self.told.ceilings += ceiling;
            self.told.reached += reached;
            self.told.lifted += lifted;
        }
        *self.answers.entry(answer.err().map_or(0, |e| e.number)).or_default() += 1;
        answer.map(|bounded| bounded.ceiling)
    }

}

impl OnSheet for Compared {
    fn call(&mut self, case: &Case, sheet: &[Vec<u16>; 2], x: usize) {
        let _ = self.ceiling(case, sheet, x);
    }

    /// With each wrong sheet, and with two that are wrong in every way.
    fn wrong(&mut self, case: &Case) {
        let n = case.pool.size();
        for sheet in case.wrong_sheets().chain([[vec![], vec![0]], [vec![9; n + 1], vec![0; n]]]) {
            self.wrong_sheet(case, &sheet);
        }
    }
}

/// What is told of every vertex not anchored in all graphs of up to 5 vertices with every anchor set. The figures were counted apart from
/// the tests, walk by walk.
const UP_TO_FIVE: Told = Told {
    none: 59_209,
    above_reached: 510,
    above_lifted: 10_986,
    capped: 0,
    ceilings: 31_172,
    reached: 30_632,
    lifted: 18_454,
};

#[test]
fn all_small_graphs() {
    let Every { mut right, wrong, several, damaged } = Every::<Compared>::small_graphs();
    println!("ceilings on all graphs of up to 5 vertices with every anchor set: {right:?}");
    println!("with wrong lengths and sheets: {:?}, with several numbers of the sheet wrong: {:?}", wrong.answers, several.answers);
    println!("on damaged pools: {:?}", damaged.answers);

    // 1 + 2 + 8 + 64 + 1,024 + 32,768 pools of 0 to 5 vertices; each vertex is free in half of them: 1 + 8 + 96 + 2,048 + 81,920
    let (pools, free) = (33_867, 84_073);
    assert_eq!(right.answers, [(0, free), (15, 5 * pools), (16, free)].into());
    assert_eq!(right.told, UP_TO_FIVE);

    // in either half of the sheet too short and too long, but where there are no vertices only too long; and two sheets more
    let halves = 2 * (2 * pools - 1) + 2 * pools;
    let entries = WRONG_ENTRIES.map(|(number, count, _)| (number, 2 * count));
    assert_eq!(wrong.answers, [(13, 2 * halves)].into_iter().chain(entries).collect());
    assert!([14, 19, 20, 21].into_iter().all(|number| several.met(number)));
    assert!(DAMAGES.into_iter().all(|number| damaged.met(number)));

    if pools::long() {
        Pool::all(6).for_each(|pool| right.right(&Case::naive(&pool), 0..=6));
        println!("with all graphs of 6 vertices: {right:?}");
    }
}

/// What a call is handed.
#[derive(Clone)]
struct Call {
    pool: Pool,
    sheet: [Vec<u16>; 2],
    x: usize,
}

impl OnTable for Call {
    fn pool(&mut self) -> &mut Pool {
        &mut self.pool
    }
}

/// Of the chain of 8 vertices with 7 anchored. There is no 12: no marks are lent.
const FAULTS: [Fault<Call>; 9] = [
    (9, 0, |call| call.pool.anchored.truncate(7)),
    (10, 5, |call| call.pool.anchored[5] = 2),
    (13, 0, |call| call.sheet[0].truncate(7)),
    (14, 2, |call| call.sheet[1][2] = 0),
    (19, 4, |call| call.sheet[0][4] = 2),
    (20, 1, |call| call.sheet[1][1] = 1),
    (21, 6, |call| call.sheet[1][6] = 9),
    (15, 9, |call| call.x = 9),
    (16, 7, |call| call.x = 7),
];

/// Every two faults at once, and each with all that come after it.
#[test]
fn several_faults() {
    let sheet = [vec![1, 1, 1, 1, 1, 1, 1, 65535], vec![1, 2, 3, 4, 5, 6, 7, 0]];
    let call = Call { pool: faults::chain(vec![0, 0, 0, 0, 0, 0, 0, 1]), sheet, x: 3 };
    let told = |Call { pool, sheet, x }: &Call| {
        Compared::default().ceiling(&Case::naive(pool), sheet, *x).map_err(|Refusal { number, place }| (number, place))
    };
    assert_eq!(told(&call), Ok(3));
    first_is_told(&faults(&FAULTS), &call, told);
}

/// Ceilings told by hand: edges, an anchor set, and of each vertex not anchored its ceiling.
#[test]
fn small_examples() {
    let chain = [(0, 1), (1, 2), (2, 3)];
    let ring = [(0, 1), (1, 2), (2, 3), (0, 3)];
    let star = [(0, 1), (0, 2), (0, 3)];
    // 0, 1 and 2 of level 2, 3 of level 1
    let tailed = [(0, 1), (0, 2), (1, 2), (0, 3)];
    let cases: [(&[(usize, usize)], [u8; 4], &[(usize, u16)]); 12] = [
        (&[], [0, 0, 0, 0], &[(0, 0), (1, 0), (2, 0), (3, 0)]),
        (&chain, [0, 0, 0, 0], &[(0, 1), (1, 0), (2, 0), (3, 1)]),
        (&chain, [1, 0, 0, 0], &[(1, 0), (2, 1), (3, 2)]),
        (&chain, [0, 1, 0, 0], &[(0, 0), (2, 0), (3, 1)]),
        // between two anchors both have level 2
        (&chain, [1, 0, 0, 1], &[(1, 0), (2, 0)]),
        (&chain, [1, 1, 1, 1], &[]),
        (&ring, [0, 0, 0, 0], &[(0, 0), (1, 0), (2, 0), (3, 0)]),
        (&ring, [1, 0, 0, 0], &[(1, 0), (2, 0), (3, 0)]),
        (&star, [0, 0, 0, 0], &[(0, 0), (1, 1), (2, 1), (3, 1)]),
        (&star, [0, 1, 0, 0], &[(0, 0), (2, 1), (3, 1)]),
        // the middle has level 2
        (&star, [0, 1, 1, 0], &[(0, 0), (3, 1)]),
        // a first step may go to a higher level, and there is no later one among equals
        (&tailed, [0, 0, 0, 0], &[(0, 0), (1, 0), (2, 0), (3, 1)]),
    ];
    for (edges, anchored, told) in cases {
        let pool = Pool::of_edges(4, edges.iter().copied(), anchored.to_vec());
        let case = Case::naive(&pool);
        let free = (0..4).filter(|&x| anchored[x] == 0);
        let ceilings: Vec<(usize, u16)> = free.map(|x| (x, Compared::default().ceiling(&case, &case.sheet(), x).unwrap())).collect();
        assert_eq!(ceilings, told, "{pool:?}");
    }
    // 0 of level 1; 1, 2 and 3 of level 2 and of layers 1, 2 and 3; 4, 5, 6 and 7 of level 3: only a first step goes up a level
    let stairs = [(0, 1), (1, 2), (2, 3), (3, 4), (3, 5), (4, 5), (4, 6), (4, 7), (5, 6), (5, 7), (6, 7), (1, 8), (2, 8)];
    let pool = Pool::of_edges(9, stairs, vec![0, 0, 0, 0, 0, 0, 0, 0, 1]);
    let case = Case::naive(&pool);
    assert_eq!(case.sheet(), [vec![1, 2, 2, 2, 3, 3, 3, 3, 65535], vec![1, 1, 2, 3, 1, 1, 1, 1, 0]]);
    let ceilings = [0, 1, 2, 3].map(|x| Compared::default().ceiling(&case, &case.sheet(), x));
    assert_eq!(ceilings, [Ok(3), Ok(2), Ok(1), Ok(2)]);
    let empty = Pool::of_edges(0, [], vec![]);
    assert_eq!(Compared::default().ceiling(&Case::naive(&empty), &[vec![], vec![]], 0), Err(Refusal { number: 15, place: 0 }));
}

/// docs/CEILING.md: what it says of its pools is what the planner answers, and the recursion; and what the planner's search finds.
#[test]
fn ceiling_page() {
    let mut compared = Compared::default();
    for row in page_examples("CEILING.md") {
        let numbers = |cell: &String| cell.split([' ', '-']).filter(|word| !word.is_empty()).map(|word| word.parse().unwrap()).collect();
        let cells: Vec<Vec<usize>> = row.iter().map(numbers).collect();
        let [pairs, anchored, x, answer, found] = cells.as_slice() else { panic!("{row:?}") };
        let (n, bytes) = (anchored.len(), anchored.iter().map(|&byte| byte as u8).collect());
        let pool = Pool::of_edges(n, pairs.chunks(2).map(|pair| (pair[0], pair[1])), bytes);
        let (case, mut marks) = (Case::naive(&pool), vec![0; n]);
        let told = compared.ceiling(&case, &case.sheet(), x[0]);
        assert_eq!(told.map_or_else(|e| vec![e.number as usize, e.place as usize], |ceiling| vec![ceiling as usize]), *answer, "{row:?}");
        let [levels, layers] = case.sheet();
        let search = planner::followers(input(&pool), &levels, &layers, x[0], &mut marks);
        assert_eq!(search.map_or(vec![], |found| vec![found.reached, found.lifted]), *found, "{row:?}");
    }
    assert_eq!(compared.answers, [(0, 10), (15, 1), (16, 1)].into());
    assert!(compared.told.above_reached > 0);
}

#[test]
fn random_graphs() {
    let count = if pools::long() { 100000 } else { 10000 };
    let Every { right, wrong, several, damaged } = Every::<Compared>::random_graphs(count, 40);
    println!("ceilings on {count} random graphs: {right:?}; with wrong lengths and sheets: {:?}", wrong.answers);
    println!("with several numbers of the sheet wrong: {:?}; with damaged pools: {:?}", several.answers, damaged.answers);
    assert_eq!(right.answers.keys().copied().collect::<Vec<_>>(), [0, 15, 16]);
    assert_eq!(wrong.answers.keys().copied().collect::<Vec<_>>(), [13, 14, 19, 20, 21]);
    assert!([14, 19, 20, 21].into_iter().all(|number| several.met(number)));
    assert!(DAMAGES.into_iter().all(|number| damaged.met(number)));
    assert!(![&several, &damaged].into_iter().any(|compared| compared.met(12)));
    assert!(right.told.above_reached > 1000 && right.told.above_lifted > right.told.above_reached && right.told.none > 1000);
}

/// Large pools, against walks counted forwards, for every vertex.
#[test]
fn large_graphs() {
    let (mut compared, mut free) = (Compared::default(), 0);
    for pool in large_pools() {
        compared.right(&Case::quick(&pool), 0..=1024);
        free += pool.anchored.iter().filter(|&&byte| byte == 0).count();
    }
    println!("ceilings on 4 graphs of 1,024 vertices: {compared:?}");
    assert_eq!(compared.answers, [(0, free), (15, 4), (16, 4 * 1024 - free)].into());
    assert!(0 < compared.told.above_reached && compared.told.above_reached < free);
}

/// As many walks as the cap, one more and one less; many more; and ladders as long as there may be, from every vertex.
#[test]
fn cap() {
    let (mut compared, top) = (Compared::default(), 30);
    let one = |compared: &mut Compared, pool: &Pool, x: usize| {
        let case = Case::quick(pool);
        compared.ceiling(&case, &case.sheet(), x).unwrap()
    };
    for (pool, x, ceiling) in [
        (Pool::ladder(14), 0, 32_766),
        (Pool::ladder(15), 0, 65_534),
        (Pool::ladder(15), 1, 32_766),
        (Pool::beside_ladder(15, &[0]), top + 2, 65_535),
        (Pool::beside_ladder(15, &[1]), top + 2, 32_767),
        (Pool::beside_ladder(15, &[1, 2]), top + 2, 65_534),
        (Pool::beside_ladder(15, &[0, top]), top + 2, 65_535),
        (Pool::beside_ladder(15, &[0, 1]), top + 2, 65_535),
        (Pool::ladder(16), 0, 65_535),
        (Pool::ladder(16), 2, 65_534),
        (Pool::ladder(17), 0, 65_535),
    ] {
        assert_eq!(one(&mut compared, &pool, x), ceiling, "{x} of {}", pool.size());
    }
    assert_eq!((compared.told.capped, compared.told.ceilings), (5, 3 * 65_534 + 2 * 32_766 + 32_767 + 5 * 65_535));
    let (longest, mut compared) = (Pool::ladder(511), Compared::default());
    compared.right(&Case::quick(&longest), 0..=longest.size());
    println!("ceilings on a ladder of 511 rungs: {compared:?}");
    // of the last 16 rungs none is capped: from the last but i there are 2^(i + 1) - 2 walks
    let below = (0..16).map(|i| 2 * ((2 << i) - 2)).sum::<usize>();
    assert_eq!(compared.told.capped, 1 + 2 * (511 - 16));
    assert_eq!(compared.told.ceilings, compared.told.capped * 65_535 + below);
    assert_eq!(compared.answers, [(0, 1023), (15, 1)].into());
}

/// Large pools told by hand.
#[test]
fn limits() {
    let complete = Pool::of_edges(128, (0..128).flat_map(|v| (0..v).map(move |u| (u, v))), vec![0; 128]);
    let chain = Pool::of_edges(1024, (0..1023).map(|v| (v, v + 1)), [vec![1], vec![0; 1023]].concat());
    let star = Pool::of_edges(1024, (1..1024).map(|v| (0, v)), vec![0; 1024]);
    // all of one side to all of the other: no place for another edge
    let both = Pool::of_edges(192, (0..64).flat_map(|u| (64..192).map(move |v| (u, v))), vec![0; 192]);
    let single = Pool::of_edges(1024, [], vec![0; 1024]);
    let mut compared = Compared::default();
    for (pool, x, ceiling) in [
        (&complete, 0, Ok(0)),
        (&complete, 127, Ok(0)),
        (&complete, 128, Err((15, 128))),
        // from the far end all the way to the anchor's neighbor
        (&chain, 1023, Ok(1022)),
        (&chain, 512, Ok(511)),
        (&chain, 1, Ok(0)),
        (&chain, 0, Err((16, 0))),
        (&star, 1023, Ok(1)),
        (&star, 0, Ok(0)),
        // the 128 are in layer 1, the 64 in layer 2
        (&both, 191, Ok(64)),
        (&both, 63, Ok(0)),
        (&single, 1023, Ok(0)),
        (&single, 1024, Err((15, 1024))),
    ] {
        let case = Case::quick(pool);
        let told = compared.ceiling(&case, &case.sheet(), x);
        assert_eq!(told, ceiling.map_err(|(number, place)| Refusal { number, place }), "{x} of {}", pool.size());
    }
    assert_eq!(both.links.len(), 16384);
}

#[test]
fn refusals() {
    let mut compared = Compared::default();
    for (pool, e) in broken() {
        let case = Case::naive(&pool);
        assert_eq!(case.defined.as_ref().err(), Some(&e), "{pool:?}");
        for x in [0, pool.size(), usize::MAX] {
            assert_eq!(compared.ceiling(&case, &case.sheet(), x), Err(e), "{pool:?} {x}");
        }
        compared.wrong(&case);
    }
    assert_eq!(compared.answers.into_keys().collect::<Vec<_>>(), (1..=10).collect::<Vec<_>>());
}

/// A vertex that a round may choose: its ceiling, its climb and how many it lifts.
struct Candidate {
    vertex: usize,
    ceiling: i32,
    climb: i32,
    lifted: i32,
}

impl Candidate {
    fn net_yield(&self) -> i32 {
        self.lifted - self.climb
    }
}

/// The vertices not anchored, by the planner's own calls.
fn candidates(pool: &Pool) -> Vec<Candidate> {
    let ([mut levels, mut layers, mut components], mut marks) = ([0; 3].map(|_| vec![0; pool.size()]), vec![0; pool.size()]);
    planner::work(input(pool), &mut levels, &mut layers, &mut components).unwrap();
    let bare = fresh_levels(&Pool { anchored: vec![0; pool.size()], ..pool.clone() });
    let mut candidate = |vertex: usize| Candidate {
        vertex,
        ceiling: planner::ceiling(input(pool), &levels, &layers, vertex).unwrap().ceiling as i32,
        climb: levels[vertex] as i32 - bare[vertex] as i32,
        lifted: planner::followers(input(pool), &levels, &layers, vertex, &mut marks).unwrap().lifted as i32,
    };
    (0..pool.size()).filter(|&v| pool.anchored[v] == 0).map(&mut candidate).collect()
}

/// Whom the first line of a sheet anchors.
fn first_anchored(sheet: &[u8]) -> Option<usize> {
    std::str::from_utf8(&sheet[18..22]).unwrap().parse().ok()
}

/// How many candidates are out: with a ceiling less climb below another's net yield. Of these how many lift someone, and how many are out
/// because of their climb alone. And how many are not out, and of those how many are not chosen either.
#[derive(Default, PartialEq, Debug)]
struct Choices {
    out: usize,
    out_lifting: usize,
    out_by_climb: usize,
    left: usize,
    left_not_chosen: usize,
}

impl Choices {
    /// None of the candidates that are out is the one that was chosen.
    fn note(&mut self, candidates: &[&Candidate], chosen: Option<usize>) {
        assert_eq!(candidates.is_empty(), chosen.is_none());
        for candidate in candidates {
            let others = candidates.iter().filter(|other| other.vertex != candidate.vertex);
            let best = others.map(|other| other.net_yield()).max().unwrap_or(i32::MIN);
            let is_chosen = chosen == Some(candidate.vertex);
            if candidate.ceiling - candidate.climb < best {
                assert!(!is_chosen, "{} is chosen", candidate.vertex);
                self.out += 1;
                self.out_lifting += (candidate.lifted > 0) as usize;
                self.out_by_climb += (candidate.ceiling >= best) as usize;
            } else {
                self.left += 1;
                self.left_not_chosen += !is_chosen as usize;
            }
        }
    }
}

/// The first round of the pool's text; and of its vertices shared out among two houses, odd and even, the first line that serves either.
fn choose(pool: &Pool, rounds: &mut Choices, houses: &mut Choices) {
    let (candidates, mut sheet) = (candidates(pool), vec![0; 48 + pool.size()]);
    planner::text_to_sheet(&pool.text(1), &mut sheet).unwrap();
    rounds.note(&candidates.iter().collect::<Vec<_>>(), first_anchored(&sheet));
    let of: Vec<u16> = (0..pool.size() as u16).map(|v| v % 2).collect();
    for house in 0..2 {
        let quotas = [0, 1].map(|other| (other == house) as u16);
        planner::share_rounds(input(pool), &of, &quotas, &mut sheet).unwrap();
        let own: Vec<&Candidate> = candidates.iter().filter(|candidate| candidate.vertex % 2 == house).collect();
        houses.note(&own, first_anchored(&sheet));
    }
}

/// Nobody whose ceiling, less his climb, is below the net yield of another up for choice is chosen. The figures for up to 5 vertices were
/// counted apart from the tests.
#[test]
fn choices() {
    let (mut rounds, mut houses) = (Choices::default(), Choices::default());
    small_pools(5).iter().for_each(|pool| choose(pool, &mut rounds, &mut houses));
    println!("choices on all graphs of up to 5 vertices: {rounds:?}; of houses: {houses:?}");
    assert_eq!(rounds, Choices { out: 22_502, out_lifting: 2_244, out_by_climb: 3_656, left: 61_571, left_not_chosen: 28_804 });
    assert!(houses.out > 0 && houses.out_lifting > 0);

    let (mut rounds, mut houses, mut random) = (Choices::default(), Choices::default(), Random(6364136223846793005));
    let count = if pools::long() { 100000 } else { 10000 };
    for i in 0..count {
        choose(&Pool::random_small(&mut random, if i % 20 == 0 { 60 } else { 12 }), &mut rounds, &mut houses);
    }
    for m in [1000, 3000, 5000] {
        let mut pool = Pool::random(&mut random, 1000, m);
        (0..100).for_each(|_| pool.anchored[random.below(1000)] = 1);
        choose(&pool, &mut rounds, &mut houses);
    }
    println!("choices on {count} random graphs and 3 of 1,000 vertices: {rounds:?}; of houses: {houses:?}");
    for Choices { out, out_lifting, out_by_climb, left_not_chosen, .. } in [rounds, houses] {
        assert!(out > 10_000 && out_lifting > 100 && out_by_climb > 100 && left_not_chosen > 100);
    }
}

/// Ladders whose first round anchors the vertex below them, which lifts all others: its ceiling is more than 15 bits hold, or 16, or far
/// more. The sheets are those of plain Rust that knows no ceilings, byte for byte.
#[test]
fn sheets() {
    for rungs in [13, 14, 15, 16, 17, 31, 32, 63, 64, 127, 510] {
        for (pool, best, lifted) in [(Pool::ladder(rungs), 0, 2 * rungs), (Pool::beside_ladder(rungs, &[0]), 2 * rungs + 2, 2 * rungs + 1)] {
            let line = 48 + pool.size();
            let (text, mut sheet) = (pool.text(3), vec![0; 3 * line]);
            assert_eq!(planner::text_to_sheet(&text, &mut sheet), Ok(3 * line));
            assert_eq!(first_anchored(&sheet), Some(best));
            assert_eq!(sheet[..line].iter().filter(|&&sign| sign == b'+').count(), lifted);
            assert_eq!(quick::text_to_sheet(&text, 3 * line), Ok(sheet));
        }
    }
}
