//! The size of the table in the answer of every call: told by hand, also at the limits; and at a refusal, as the archive answers it,
//! nothing of it.

mod shared;

use planner::{Size, Term};
use pools::{Pool, Random};
use reference::Event;
use shared::exports::{self, Answer};
use shared::sessions::Call;
use shared::{houses, input, terms};
use std::collections::BTreeSet;

/// What every call answers of the pool's size, in the session with these events; the search, its ceiling and the collapse from every vertex
/// given.
fn answered(pool: &Pool, events: &[Event], vertices: &[usize]) -> Vec<Size> {
    let ([mut levels, mut layers, mut components], mut marks) = ([0; 3].map(|_| vec![0; pool.size()]), vec![0; pool.size()]);
    let mut sizes = vec![
        planner::check(&pool.starts, &pool.links).unwrap(),
        planner::list_components(input(pool), &mut levels, &mut layers, &mut components).unwrap().size,
        planner::work(input(pool), &mut levels, &mut layers, &mut components).unwrap(),
        planner::check_sheet(input(pool), &levels, &layers).unwrap(),
        Call::new(pool, events).make().unwrap(),
        planner::share_rounds(input(pool), &vec![1; pool.size()], &[1, 1], &mut vec![0; 2 * (48 + pool.size())]).unwrap().size,
    ];
    for &x in vertices {
        let first_day = |terms: &[Term]| planner::first_day(&pool.starts, &pool.links, terms, 3..9, x, 1).unwrap().size;
        sizes.extend([first_day(&[]), first_day(&[Term { vertex: x as u16, first: 5, end: 8 }])]);
        sizes.push(planner::collapse(input(pool), &levels, &layers, x, &mut marks).unwrap());
        if pool.anchored[x] == 0 {
            sizes.push(planner::followers(input(pool), &levels, &layers, x, &mut marks).unwrap().size);
            sizes.push(planner::ceiling(input(pool), &levels, &layers, x).unwrap().size);
        }
    }
    sizes
}

/// The pool with nobody anchored, with each third vertex and with all of them: who is anchored does not matter.
fn expect(n: usize, edges: &[(usize, usize)], (m, max_degree): (usize, usize)) {
    let ends = [0, n / 2, n.saturating_sub(1)].into_iter().filter(|&x| x < n).collect::<Vec<_>>();
    let drops: Vec<Event> = edges.iter().take(3).map(|&(u, v)| Event::drop_edge(u as u16, v as u16)).collect();
    for share in [n + 1, 3, 1] {
        let anchored = (1..=n).map(|v| (v % share == 0) as u8).collect();
        let pool = Pool::of_edges(n, edges.iter().copied(), anchored);
        let sizes = answered(&pool, &drops, &ends);
        assert!(sizes.iter().all(|&size| size == Size { edges: m, max_degree }), "{n} vertices, {m} edges: {sizes:?}");
    }
}

/// The star with this middle.
fn star(n: usize, middle: usize) -> Vec<(usize, usize)> {
    (0..n).filter(|&v| v != middle).map(|v| (middle, v)).collect()
}

#[test]
fn small_pools() {
    expect(0, &[], (0, 0));
    expect(1, &[], (0, 0));
    expect(5, &[], (0, 0));
    expect(2, &[(0, 1)], (1, 1));
    expect(4, &[(0, 1), (2, 3)], (2, 1));
    expect(4, &[(0, 1), (1, 2), (2, 3)], (3, 2));
    expect(4, &[(0, 1), (1, 2), (2, 3), (0, 3)], (4, 2));
    expect(4, &[(0, 1), (0, 2), (0, 3), (1, 2), (1, 3), (2, 3)], (6, 3));
    for middle in 0..4 {
        expect(4, &star(4, middle), (3, 3));
        // two of the others are joined, and 4 has no neighbor
        expect(5, &[star(4, middle), vec![((middle + 1) % 4, (middle + 2) % 4)]].concat(), (4, 3));
    }
}

#[test]
fn limits() {
    expect(1024, &[], (0, 0));
    for middle in [0, 511, 1023] {
        expect(1024, &star(1024, middle), (1023, 1023));
    }
    let both: Vec<(usize, usize)> = (0..64).flat_map(|u| (64..192).map(move |v| (u, v))).collect();
    expect(192, &both, (8192, 128));
    let complete: Vec<(usize, usize)> = (0..128).flat_map(|v| (0..v).map(move |u| (u, v))).collect();
    expect(128, &complete, (8128, 127));
    // vertex 0 has an edge to each other one, and there is no place for one edge more
    let mut random = Random(1442695040);
    let mut edges: BTreeSet<(usize, usize)> = (1..1024).map(|v| (0, v)).collect();
    while edges.len() < 8192 {
        let (u, v) = (random.below(1024), random.below(1024));
        edges.extend((u < v).then_some((u, v)));
    }
    expect(1024, &edges.into_iter().collect::<Vec<_>>(), (8192, 1023));
}

/// What calls are handed and lent: slices with `room` for a number of each vertex, for a session `places` for links, and lists of events of
/// these lengths, the lists of terms, houses with their quotas, and `bytes` for a sheet.
#[derive(Clone)]
struct Handed {
    pool: Pool,
    levels: Vec<u16>,
    layers: Vec<u16>,
    x: usize,
    room: usize,
    places: usize,
    events: [usize; 3],
    terms: [Vec<u16>; 3],
    houses: Vec<u16>,
    quotas: Vec<u16>,
    bytes: usize,
}

/// The chain 0-1-2-3 with 0 anchored.
fn sound() -> Handed {
    Handed {
        pool: Pool::of_edges(4, [(0, 1), (1, 2), (2, 3)], vec![1, 0, 0, 0]),
        levels: vec![65535, 1, 1, 1],
        layers: vec![0, 3, 2, 1],
        x: 3,
        room: 4,
        places: 16384,
        events: [5; 3],
        terms: [vec![0, 3, 2], vec![4, 4, 6], vec![9, 7, 7]],
        houses: vec![0, 1, 1, 0],
        quotas: vec![1, 2],
        bytes: 156,
    }
}

/// A call that fills three slices with a number for each vertex.
type Filling = unsafe extern "C" fn(
    *const u16, usize, *const u16, usize, *const u8, usize, *mut u16, usize, *mut u16, usize, *mut u16, usize,
) -> Answer;

/// A call that is handed a level sheet and a vertex, and marks vertices.
type Marking = unsafe extern "C" fn(
    *const u16, usize, *const u16, usize, *const u8, usize, *const u16, usize, *const u16, usize, usize, *mut u8, usize,
) -> Answer;

impl Handed {
    fn check(&self) -> Answer {
        let Pool { starts, links, .. } = &self.pool;
        // SAFETY: here and in the other calls pointers and lengths of live slices, of which nothing else borrows those for writing.
        unsafe { exports::planner_check(starts.as_ptr(), starts.len(), links.as_ptr(), links.len()) }
    }

    fn filled_by(&self, call: Filling) -> Answer {
        let (Pool { starts, links, anchored }, [mut a, mut b, mut c]) = (&self.pool, [0; 3].map(|_| vec![0; self.room]));
        unsafe {
            call(
                starts.as_ptr(), starts.len(), links.as_ptr(), links.len(), anchored.as_ptr(), anchored.len(),
                a.as_mut_ptr(), a.len(), b.as_mut_ptr(), b.len(), c.as_mut_ptr(), c.len(),
            )
        }
    }

    fn check_sheet(&self) -> Answer {
        let Handed { pool: Pool { starts, links, anchored }, levels, layers, .. } = self;
        unsafe {
            exports::planner_check_sheet(
                starts.as_ptr(), starts.len(), links.as_ptr(), links.len(), anchored.as_ptr(), anchored.len(),
                levels.as_ptr(), levels.len(), layers.as_ptr(), layers.len(),
            )
        }
    }

    fn marked_by(&self, call: Marking) -> Answer {
        let (Handed { pool: Pool { starts, links, anchored }, levels, layers, .. }, mut marks) = (self, vec![0; self.room]);
        unsafe {
            call(
                starts.as_ptr(), starts.len(), links.as_ptr(), links.len(), anchored.as_ptr(), anchored.len(),
                levels.as_ptr(), levels.len(), layers.as_ptr(), layers.len(), self.x, marks.as_mut_ptr(), marks.len(),
            )
        }
    }

    fn ceiling(&self) -> Answer {
        let Handed { pool: Pool { starts, links, anchored }, levels, layers, .. } = self;
        unsafe {
            exports::planner_ceiling(
                starts.as_ptr(), starts.len(), links.as_ptr(), links.len(), anchored.as_ptr(), anchored.len(),
                levels.as_ptr(), levels.len(), layers.as_ptr(), layers.len(), self.x,
            )
        }
    }

    /// On the days from 4 on, under level 65,535.
    fn first_day(&self) -> Answer {
        let (pool, [vertices, firsts, ends]) = (self.pool.clone(), self.terms.clone());
        terms::Call { pool, vertices, firsts, ends, days: 4..20, x: self.x, k: 65535 }.make()
    }

    fn share_rounds(&self) -> Answer {
        houses::Call { pool: self.pool.clone(), houses: self.houses.clone(), quotas: self.quotas.clone(), room: self.bytes }.make().0
    }

    /// Each event drops the edge between 0 and 1, which the first of them does.
    fn run(&self) -> Answer {
        let Pool { mut starts, mut links, anchored: given } = self.pool.clone();
        links.resize(self.places, 7);
        let [kinds, firsts, seconds] = [(2, 0), (0, 1), (1, 2)].map(|(number, list)| vec![number; self.events[list]]);
        let (mut bytes, mut yields) = (vec![0; self.room], vec![0; self.room]);
        let [mut a, mut b, mut c, mut d, mut e] = [0; 5].map(|_| vec![0; self.room]);
        let [mut f, mut g, mut h] = self.events.map(|m| vec![0; m]);
        unsafe {
            exports::planner_run(
                starts.as_mut_ptr(), starts.len(), links.as_mut_ptr(), links.len(), given.as_ptr(), given.len(),
                kinds.as_ptr(), kinds.len(), firsts.as_ptr(), firsts.len(), seconds.as_ptr(), seconds.len(),
                bytes.as_mut_ptr(), bytes.len(), a.as_mut_ptr(), a.len(), b.as_mut_ptr(), b.len(),
                c.as_mut_ptr(), c.len(), yields.as_mut_ptr(), yields.len(), d.as_mut_ptr(), d.len(), e.as_mut_ptr(), e.len(),
                f.as_mut_ptr(), f.len(), g.as_mut_ptr(), g.len(), h.as_mut_ptr(), h.len(),
            )
        }
    }
}

/// Something wrong for each refusal.
const DAMAGES: [fn(&mut Handed); 38] = [
    |handed| handed.pool.starts.clear(),
    |handed| handed.pool.starts.resize(1026, 6),
    |handed| handed.pool.links.resize(16385, 0),
    |handed| handed.pool.starts[4] = 16385,
    |handed| handed.pool.starts[1] = 4,
    |handed| handed.pool.links[0] = 9,
    |handed| handed.pool.links[0] = 0,
    |handed| handed.pool.links.swap(1, 2),
    |handed| handed.pool.links[2] = 3,
    |handed| handed.pool.anchored.truncate(3),
    |handed| handed.pool.anchored[2] = 2,
    |handed| handed.events[1] = 4,
    |handed| handed.events = [4097; 3],
    |handed| handed.room = 3,
    |handed| handed.places = 16383,
    |handed| handed.levels.truncate(3),
    |handed| handed.layers[3] = 0,
    |handed| handed.levels[3] = 2,
    |handed| handed.layers[1] = 1,
    |handed| handed.layers[1] = 9,
    |handed| handed.x = 4,
    |handed| handed.x = 0,
    |handed| handed.terms[0].truncate(2),
    |handed| handed.terms[0].push(1),
    |handed| handed.terms[1].truncate(2),
    |handed| handed.terms[1].push(5),
    |handed| handed.terms[2].truncate(2),
    |handed| handed.terms[2].push(9),
    |handed| handed.terms[0][2] = 4,
    |handed| handed.terms = [vec![1; 257], vec![5; 257], vec![9; 257]],
    |handed| handed.terms[2][1] = 4,
    |handed| handed.houses.truncate(3),
    |handed| handed.houses.push(0),
    |handed| handed.houses[2] = 2,
    |handed| handed.quotas[0] = 59,
    |handed| handed.quotas.clear(),
    |handed| handed.quotas = vec![1; 17],
    |handed| handed.bytes = 155,
];

/// A call, what it answers where nothing is wrong, and the numbers of its refusals.
type Told = (fn(&Handed) -> Answer, [u64; 5], &'static [u64]);

const CALLS: [Told; 10] = [
    (Handed::check, [0, 0, 0, 3, 2], &[1, 2, 3, 4, 5, 6, 7, 8]),
    (|handed| handed.filled_by(exports::planner_work), [0, 0, 0, 3, 2], &[1, 2, 3, 4, 5, 6, 7, 8, 9, 10, 12]),
    (|handed| handed.filled_by(exports::planner_list_components), [0, 1, 0, 3, 2], &[1, 2, 3, 4, 5, 6, 7, 8, 9, 10, 12]),
    (Handed::check_sheet, [0, 0, 0, 3, 2], &[1, 2, 3, 4, 5, 6, 7, 8, 9, 10, 13, 14, 19, 20, 21]),
    (|handed| handed.marked_by(exports::planner_followers), [0, 2, 2, 3, 2], &[1, 2, 3, 4, 5, 6, 7, 8, 9, 10, 12, 13, 14, 15, 16, 19, 20, 21]),
    (Handed::ceiling, [0, 2, 0, 3, 2], &[1, 2, 3, 4, 5, 6, 7, 8, 9, 10, 13, 14, 15, 16, 19, 20, 21]),
    (|handed| handed.marked_by(exports::planner_collapse), [0, 0, 0, 3, 2], &[1, 2, 3, 4, 5, 6, 7, 8, 9, 10, 12, 13, 14, 15, 19, 20, 21]),
    (Handed::first_day, [0, 7, 1, 3, 2], &[1, 2, 3, 4, 5, 6, 7, 8, 9, 15, 24, 25]),
    (Handed::run, [0, 0, 0, 3, 2], &[1, 2, 3, 4, 5, 6, 7, 8, 9, 10, 11, 12]),
    (Handed::share_rounds, [0, 156, 0, 3, 2], &[1, 2, 3, 4, 5, 6, 7, 8, 9, 10, 11, 12, 26, 27]),
];

/// Each call with each thing wrong: refused, it answers 0 behind number and place; where what is wrong is not its own, it is accepted.
#[test]
fn refusals() {
    let (mut refused, mut accepted) = (0, 0);
    for (call, told, numbers) in CALLS {
        let answer = |handed: &Handed| {
            let Answer { number, first, second, edges, max_degree } = call(handed);
            [number, first, second, edges, max_degree]
        };
        assert_eq!(answer(&sound()), told);
        let mut met = BTreeSet::new();
        for damage in DAMAGES {
            let mut handed = sound();
            damage(&mut handed);
            match answer(&handed) {
                [0, _, _, edges, max_degree] => {
                    assert_eq!([edges, max_degree], [3, 2]);
                    accepted += 1;
                }
                [number, _, rest @ ..] => {
                    assert_eq!(rest, [0; 3], "refusal {number}");
                    met.insert(number);
                    refused += 1;
                }
            }
        }
        assert!(met.into_iter().eq(numbers.iter().copied()));
    }
    println!("{refused} refused calls with no size, {accepted} accepted ones with it");
}
