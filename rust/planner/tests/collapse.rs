//! Who falls with a vertex gone, against two naive workings: on all small graphs and many random ones, with right and with wrong lengths,
//! sheets and tables; large graphs against two quick workings. PLANNER_LONG=1 runs more.

mod shared;

use planner::Refusal;
use pools::Pool;
use reference::{Anchoring, Sheet};
use shared::cases::{Case, Defined, WRONG_ENTRIES};
use shared::sheets::{Every, OnSheet};
use shared::{broken, fresh_levels, input, large_pools, page_examples, small_pools, wrong_lengths, DAMAGES};
use std::collections::{BTreeMap, BTreeSet};

/// The pool with no edges at x.
fn without_edges(pool: &Pool, x: usize) -> Pool {
    let (mut starts, mut links) = (vec![0], vec![]);
    for v in 0..pool.size() {
        links.extend(pool.list(v).iter().filter(|&&u| v != x && u as usize != x));
        starts.push(links.len() as u16);
    }
    Pool { starts, links, anchored: pool.anchored.clone() }
}

/// The pool without x: each vertex above it gets the number one lower.
fn without(pool: &Pool, x: usize) -> Pool {
    let Pool { mut starts, mut links, mut anchored } = without_edges(pool, x);
    starts.remove(x);
    anchored.remove(x);
    links.iter_mut().for_each(|u| *u -= (*u as usize > x) as u16);
    Pool { starts, links, anchored }
}

/// How many vertices were marked; and of these how many are no neighbor of x, how many fall with an anchored x, how many are in a lower
/// component than x's, and how many of those are no neighbor of x.
#[derive(Default, PartialEq, Debug)]
struct Fallen {
    all: usize,
    apart: usize,
    by_anchored: usize,
    lower: usize,
    lower_apart: usize,
}

impl Fallen {
    /// There are some of each kind, and others.
    fn in_every_way(&self) {
        let Fallen { all, apart, by_anchored, lower, lower_apart } = *self;
        assert!([apart, by_anchored, lower].into_iter().all(|count| 0 < count && count < all) && 0 < lower_apart && lower_apart < lower);
    }
}

/// How many calls gave each number, 0 where it accepted; and whom the accepted ones with right lengths marked.
#[derive(Default, PartialEq, Debug)]
struct Compared {
    answers: BTreeMap<u64, usize>,
    fallen: Fallen,
}

impl Compared {
    fn met(&self, number: u64) -> bool {
        self.answers.contains_key(&number)
    }

    /// The call for x on some sheet, with room for so many marks, which have other bytes on either side; the marks if it is accepted.
    fn collapse(&mut self, case: &Case, sheet: &[Vec<u16>; 2], x: usize, length: usize) -> Result<Vec<u8>, Refusal> {
        let expected = case.lent(&[length]).and_then(|defined| {
            let size = case.checked(sheet)?;
            if x >= case.pool.size() {
                return Err(Refusal { number: 15, place: x as u64 });
            }
            Ok(((defined.working.collapse)(case.pool, defined, x), size))
        });
        let before: Vec<u8> = (0..length + 16).map(|i| 100 + (i % 100) as u8).collect();
        let (pool, [levels, layers], mut bytes) = (case.pool.clone(), sheet.clone(), before.clone());
        let answer = planner::collapse(input(&pool), &levels, &layers, x, &mut bytes[8..8 + length]);
        assert_eq!(answer, expected.as_ref().map(|(_, size)| *size).map_err(|e| *e), "{pool:?} {x} {sheet:?}");
        let expected = expected.map(|(marks, _)| marks);
        let marks = expected.as_deref().unwrap_or(&before[8..8 + length]);
        assert_eq!(bytes, [&before[..8], marks, &before[8 + length..]].concat(), "{pool:?} {x} {sheet:?}");
        assert!(pool == *case.pool && [levels, layers] == *sheet);
        *self.answers.entry(answer.err().map_or(0, |e| e.number)).or_default() += 1;
        expected
    }

    /// What holds of the marks for x: they are the differences of two workings, so that nobody rises or falls by more than one level; the
    /// second may be of the pool with no edges at x, whether x is anchored in it or not, or of the pool without x; and those who fall are in
    /// x's component or in a lower one that x has a neighbor in, for an anchored x in any that it has a neighbor in.
    fn falls(&mut self, pool: &Pool, Defined { at, working, .. }: &Defined, x: usize, marks: &[u8]) {
        let Anchoring { anchored, sheet: Sheet { level, component, .. } } = at;
        let mut rest = without_edges(pool, x);
        let after = (working.sheet)(&rest).level;
        rest.anchored[x] = 0;
        let with_x_free = (working.sheet)(&rest).level;
        let mut with_x_gone = fresh_levels(&without(pool, x));
        with_x_gone.insert(x, 0);
        let beside: BTreeSet<u16> = pool.list(x).iter().map(|&u| component[u as usize]).collect();
        for v in (0..pool.size()).filter(|&v| v != x && !anchored[v]) {
            assert_eq!(level[v], after[v] + marks[v] as u16, "{pool:?} {x} {v}");
            assert_eq!([with_x_free[v], with_x_gone[v]], [after[v]; 2], "{pool:?} {x} {v}");
            if marks[v] == 1 {
                let (apart, lower) = (!pool.list(x).contains(&(v as u16)), !anchored[x] && level[v] < level[x]);
                assert!(component[v] == component[x] || (lower || anchored[x]) && beside.contains(&component[v]), "{pool:?} {x} {v}");
                self.fallen.all += 1;
                self.fallen.apart += apart as usize;
                self.fallen.by_anchored += anchored[x] as usize;
                self.fallen.lower += lower as usize;
                self.fallen.lower_apart += (lower && apart) as usize;
            }
        }
    }

    /// For a vertex and for n, with so many marks.
    fn with_marks(&mut self, case: &Case, sheet: &[Vec<u16>; 2], length: usize) {
        for x in [0, case.pool.size()] {
            let _ = self.collapse(case, sheet, x, length);
        }
    }
}

impl OnSheet for Compared {
    fn call(&mut self, case: &Case, sheet: &[Vec<u16>; 2], x: usize) {
        let _ = self.collapse(case, sheet, x, case.pool.size());
    }

    /// Of those who fall it is noted where they are.
    fn right(&mut self, case: &Case, numbers: impl IntoIterator<Item = usize>) {
        for x in numbers {
            if let (Ok(marks), Ok(defined)) = (self.collapse(case, &case.sheet(), x, case.pool.size()), &case.defined) {
                self.falls(case.pool, defined, x, &marks);
            }
        }
    }

    /// With too few marks, too many and none, on the defined sheet and on sheets that are refused; and on each wrong sheet.
    fn wrong(&mut self, case: &Case) {
        let n = case.pool.size();
        for length in wrong_lengths(n).chain((n > 1).then_some(0)) {
            for sheet in [case.sheet(), [vec![], vec![0]], [vec![9; n], vec![0; n]]] {
                self.with_marks(case, &sheet, length);
            }
        }
        for sheet in case.wrong_sheets() {
            self.wrong_sheet(case, &sheet);
        }
    }
}

/// Whom every vertex makes fall in all graphs of up to 5 vertices with every anchor set, and in those of 6 vertices of which none is
/// anchored: it takes 6 for a fall to run on in a lower component. The figures were counted apart from the tests.
const UP_TO_FIVE: Fallen = Fallen { all: 134_274, apart: 9_676, by_anchored: 76_364, lower: 5_220, lower_apart: 0 };
const SIX_FREE: Fallen = Fallen { all: 326_490, apart: 38_130, by_anchored: 0, lower: 27_270, lower_apart: 360 };

#[test]
fn all_small_graphs() {
    let Every { right, wrong, several, damaged } = Every::<Compared>::small_graphs();
    println!("who falls, on all graphs of up to 5 vertices with every anchor set: {right:?}");
    println!("with wrong lengths and sheets: {:?}, with several numbers of the sheet wrong: {:?}", wrong.answers, several.answers);
    println!("on damaged pools: {:?}", damaged.answers);

    // 1 + 2 + 8 + 64 + 1,024 + 32,768 pools of 0 to 5 vertices, with 2 + 16 + 192 + 4,096 + 163,840 vertices in all
    let (pools, vertices) = (33_867, 168_146);
    assert_eq!(right.answers, [(0, vertices), (15, 5 * pools)].into());
    assert_eq!(right.fallen, UP_TO_FIVE);

    // one wrong length where there are no vertices, two where there is one, else three; three sheets with each, two calls with each sheet
    let marks = 1 + 2 * 2 + 3 * (pools - 3);
    // in either half of the sheet too short and too long, but where there are no vertices only too long
    let halves = 2 * (2 * pools - 1);
    let entries = WRONG_ENTRIES.map(|(number, count, _)| (number, 2 * count));
    assert_eq!(wrong.answers, [(12, 2 * 3 * marks), (13, 2 * halves)].into_iter().chain(entries).collect());
    assert!([14, 19, 20, 21].into_iter().all(|number| several.met(number)));
    assert!(DAMAGES.into_iter().all(|number| damaged.met(number)));
}

/// All graphs of 6 vertices, none anchored; in a long run with every anchor set.
#[test]
fn all_graphs_of_six() {
    let (mut free, mut all) = (Compared::default(), Compared::default());
    Pool::all_free(6).for_each(|pool| free.right(&Case::naive(&pool), 0..=6));
    println!("who falls, on all graphs of 6 vertices, none anchored: {free:?}");
    assert_eq!(free, Compared { answers: [(0, 6 * 32_768), (15, 32_768)].into(), fallen: SIX_FREE });
    if pools::long() {
        Pool::all(6).for_each(|pool| all.right(&Case::naive(&pool), 0..=6));
        println!("with every anchor set: {all:?}");
    }
}

/// Bytes above 1 at each vertex of all graphs of up to 4 vertices: 10 at the lowest, whatever x is.
#[test]
fn bytes_above_one() {
    let mut compared = Compared::default();
    for pool in small_pools(4) {
        for (v, byte) in (0..pool.size()).flat_map(|v| [2, 3, 128, 255].map(|byte| (v, byte))) {
            let mut pool = pool.clone();
            pool.anchored[v] = byte;
            *pool.anchored.last_mut().unwrap() |= byte;
            for x in 0..=pool.size() {
                let case = Case::naive(&pool);
                assert_eq!(compared.collapse(&case, &case.sheet(), x, pool.size()), Err(Refusal { number: 10, place: v as u64 }));
            }
        }
    }
    // 2, 8, 64 and 1,024 pools: four bytes at each vertex, for each x up to n
    assert_eq!(compared.answers, [(10, 4 * (2 * 2 + 2 * 8 * 3 + 3 * 64 * 4 + 4 * 1_024 * 5))].into());
}

/// The chain 0-1-2-3 with a fault for each number from 9 on: it is told once those told before it are mended.
#[test]
fn several_faults() {
    let steps: [(&[u8], usize, &[u16], &[u16], usize, Result<Vec<u8>, (u64, u64)>); 10] = [
        (&[0, 0, 2], 3, &[1, 1, 1, 2, 1], &[1, 3, 1, 0], 9, Err((9, 0))),
        (&[0, 0, 2, 0], 3, &[1, 1, 1, 2, 1], &[1, 3, 1, 0], 9, Err((10, 2))),
        (&[0, 0, 0, 0], 3, &[1, 1, 1, 2, 1], &[1, 3, 1, 0], 9, Err((12, 0))),
        (&[0, 0, 0, 0], 4, &[1, 1, 1, 2, 1], &[1, 3, 1, 0], 9, Err((13, 0))),
        (&[0, 0, 0, 0], 4, &[1, 1, 1, 2], &[1, 3, 1, 0], 9, Err((14, 3))),
        (&[0, 0, 0, 0], 4, &[1, 1, 1, 2], &[1, 3, 1, 1], 9, Err((19, 3))),
        (&[0, 0, 0, 0], 4, &[1, 1, 1, 1], &[1, 3, 1, 1], 9, Err((20, 2))),
        (&[0, 0, 0, 0], 4, &[1, 1, 1, 1], &[1, 3, 2, 1], 9, Err((21, 1))),
        (&[0, 0, 0, 0], 4, &[1, 1, 1, 1], &[1, 2, 2, 1], 9, Err((15, 9))),
        (&[0, 0, 0, 0], 4, &[1, 1, 1, 1], &[1, 2, 2, 1], 1, Ok(vec![1, 0, 0, 0])),
    ];
    for (anchored, length, levels, layers, x, told) in steps {
        let pool = Pool::of_edges(4, [(0, 1), (1, 2), (2, 3)], anchored.to_vec());
        let answer = Compared::default().collapse(&Case::naive(&pool), &[levels.to_vec(), layers.to_vec()], x, length);
        assert_eq!(answer, told.map_err(|(number, place)| Refusal { number, place }));
    }
}

/// Marks told by hand: edges, an anchor set, x, and who falls.
#[test]
fn small_examples() {
    let chain = [(0, 1), (1, 2), (2, 3)];
    let ring = [(0, 1), (1, 2), (2, 3), (0, 3)];
    let star = [(0, 1), (0, 2), (0, 3)];
    // 0, 1 and 2 of level 2, 3 of level 1
    let tailed = [(0, 1), (0, 2), (1, 2), (0, 3)];
    let cases: [(&[(usize, usize)], [u8; 4], usize, [u8; 4]); 18] = [
        (&[], [0, 0, 0, 0], 0, [0, 0, 0, 0]),
        (&chain, [0, 0, 0, 0], 0, [0, 0, 0, 0]),
        (&chain, [0, 0, 0, 0], 1, [1, 0, 0, 0]),
        // between two anchors both have level 2
        (&chain, [1, 0, 0, 1], 0, [0, 1, 1, 0]),
        (&chain, [1, 0, 0, 1], 1, [0, 0, 1, 0]),
        (&chain, [1, 0, 0, 0], 0, [0, 0, 0, 0]),
        (&chain, [1, 0, 0, 0], 2, [0, 0, 0, 1]),
        (&chain, [1, 1, 1, 1], 1, [0, 0, 0, 0]),
        (&ring, [0, 0, 0, 0], 2, [1, 1, 0, 1]),
        (&ring, [1, 0, 0, 0], 0, [0, 1, 1, 1]),
        (&star, [0, 0, 0, 0], 0, [0, 1, 1, 1]),
        (&star, [0, 0, 0, 0], 1, [0, 0, 0, 0]),
        (&star, [1, 0, 0, 1], 0, [0, 1, 1, 0]),
        (&star, [0, 0, 1, 1], 1, [0, 0, 0, 0]),
        (&star, [0, 0, 1, 1], 2, [1, 0, 0, 0]),
        // a vertex of the higher component takes its lower neighbor with it, and not the other way round
        (&tailed, [0, 0, 0, 0], 0, [0, 1, 1, 1]),
        (&tailed, [0, 0, 0, 0], 1, [1, 0, 1, 0]),
        (&tailed, [0, 0, 0, 0], 3, [0, 0, 0, 0]),
    ];
    for (edges, anchored, x, marks) in cases {
        let pool = Pool::of_edges(4, edges.iter().copied(), anchored.to_vec());
        let case = Case::naive(&pool);
        assert_eq!(Compared::default().collapse(&case, &case.sheet(), x, 4), Ok(marks.to_vec()), "{pool:?} {x}");
    }
    // 0 to 3 of level 3, 4 and 5 of level 2 between 0 and 1: with 0 gone 5 falls because 4 does
    let with_path = Pool::of_edges(6, [(0, 1), (0, 2), (0, 3), (1, 2), (1, 3), (2, 3), (0, 4), (4, 5), (5, 1)], vec![0; 6]);
    let case = Case::naive(&with_path);
    assert_eq!(Compared::default().collapse(&case, &case.sheet(), 0, 6), Ok(vec![0, 1, 1, 1, 1, 1]));
    assert_eq!(Compared::default().collapse(&case, &case.sheet(), 4, 6), Ok(vec![0, 0, 0, 0, 0, 1]));
    let empty = Pool::of_edges(0, [], vec![]);
    assert_eq!(Compared::default().collapse(&Case::naive(&empty), &[vec![], vec![]], 0, 0), Err(Refusal { number: 15, place: 0 }));
}

/// docs/COLLAPSE.md: what it says of its pools is what the planner answers, and the two workings.
#[test]
fn collapse_page() {
    let mut compared = Compared::default();
    for row in page_examples("COLLAPSE.md") {
        let [pairs, anchored, x, answer] = row.as_slice() else { panic!("{row:?}") };
        let numbers = |cell: &str| cell.split([' ', '-']).map(|word| word.parse().unwrap()).collect::<Vec<usize>>();
        let bytes = |cell: &str| numbers(cell).into_iter().map(|number| number as u8).collect::<Vec<u8>>();
        let pool = Pool::of_edges(4, numbers(pairs).chunks(2).map(|pair| (pair[0], pair[1])), bytes(anchored));
        let case = Case::naive(&pool);
        let told = compared.collapse(&case, &case.sheet(), numbers(x)[0], 4);
        assert_eq!(told.unwrap_or_else(|e| vec![e.number as u8, e.place as u8]), bytes(answer), "{row:?}");
    }
    assert_eq!(compared.answers, [(0, 8), (15, 1)].into());
}

#[test]
fn random_graphs() {
    let count = if pools::long() { 100000 } else { 10000 };
    let Every { right, wrong, several, damaged } = Every::<Compared>::random_graphs(count, 30);
    println!("who falls, on {count} random graphs: {right:?}; with wrong lengths and sheets: {:?}", wrong.answers);
    println!("with several numbers of the sheet wrong: {:?}; with damaged pools: {:?}", several.answers, damaged.answers);
    assert_eq!(right.answers.keys().copied().collect::<Vec<_>>(), [0, 15]);
    assert_eq!(wrong.answers.keys().copied().collect::<Vec<_>>(), [12, 13, 14, 19, 20, 21]);
    assert!([14, 19, 20, 21].into_iter().all(|number| several.met(number)));
    assert!(DAMAGES.into_iter().all(|number| damaged.met(number)));
    right.fallen.in_every_way();
}

/// Large pools, against the quick working, for every vertex.
#[test]
fn large_graphs() {
    let mut compared = Compared::default();
    for pool in large_pools() {
        compared.right(&Case::quick(&pool), 0..=1024);
    }
    println!("who falls, on 4 graphs of 1,024 vertices: {compared:?}");
    assert_eq!(compared.answers, [(0, 4 * 1024), (15, 4)].into());
    compared.fallen.in_every_way();
}

/// Two groups of vertices, all of the one joined to all of the other.
fn bipartite(one: usize, other: usize) -> Pool {
    Pool::of_edges(one + other, (0..one).flat_map(|u| (one..one + other).map(move |v| (u, v))), vec![0; one + other])
}

/// A ring of 1,024 vertices, each joined to so many next ones on either side.
fn ring(nearest: usize) -> Pool {
    Pool::of_edges(1024, (0..1024).flat_map(|u| (1..=nearest).map(move |i| (u, (u + i) % 1024))), vec![0; 1024])
}

/// A ring of 1,000 vertices, each joined to 7 hubs too.
fn ring_with_hubs() -> Pool {
    let along = (0..1000).map(|v| (v, (v + 1) % 1000));
    let spokes = (1000..1007).flat_map(|hub| (0..1000).map(move |v| (hub, v)));
    Pool::of_edges(1007, along.chain(spokes), vec![0; 1007])
}

/// Large pools in which everyone falls who is not anchored, or nobody.
#[test]
fn limits() {
    let complete = Pool::of_edges(128, (0..128).flat_map(|v| (0..v).map(move |u| (u, v))), vec![0; 128]);
    let chain = Pool::of_edges(1024, (0..1023).map(|v| (v, v + 1)), [vec![1], vec![0; 1022], vec![1]].concat());
    let single = Pool::of_edges(1024, [], vec![0; 1024]);
    let all_anchored = Pool { anchored: vec![1; 1024], ..ring(8) };
    let mut compared = Compared::default();
    for (pool, x, fallen) in [
        (&complete, 0, 127),
        (&complete, 127, 127),
        // a hub and another
        (&bipartite(8, 1000), 7, 1007),
        (&bipartite(8, 1000), 1007, 0),
        (&bipartite(64, 128), 0, 191),
        (&bipartite(64, 128), 191, 0),
        // from one vertex to the next all the way
        (&ring(1), 0, 1023),
        (&ring(8), 1023, 1023),
        // the hubs lose one neighbor after the other
        (&ring_with_hubs(), 0, 1006),
        (&chain, 0, 1022),
        (&chain, 500, 1021),
        (&single, 1023, 0),
        (&all_anchored, 5, 0),
    ] {
        let (case, before) = (Case::quick(pool), compared.fallen.all);
        compared.right(&case, [x, pool.size()]);
        assert_eq!(compared.fallen.all - before, fallen, "{x} of {}", pool.size());
    }
    assert_eq!([bipartite(64, 128).links.len(), ring(8).links.len()], [16384; 2]);
    assert_eq!(compared.answers, [(0, 13), (15, 13)].into());
}

#[test]
fn refusals() {
    let mut compared = Compared::default();
    for (pool, e) in broken() {
        let case = Case::naive(&pool);
        assert_eq!(case.defined.as_ref().err(), Some(&e), "{pool:?}");
        for x in [0, pool.size(), usize::MAX] {
            assert_eq!(compared.collapse(&case, &case.sheet(), x, pool.size()), Err(e), "{pool:?} {x}");
        }
        compared.wrong(&case);
    }
    assert_eq!(compared.answers.into_keys().collect::<Vec<_>>(), (1..=10).collect::<Vec<_>>());
}
