//! What is measured. Both sides of a line run on the same pool, one after the other.

use crate::clock;
use crate::sessions::{fresh_reached, run, List};
use planner::{Input, Record};
use pools::{Pool, Random};
use reference::quick::{self, Cores, Remembered, TwoWorkings};
use std::hint::black_box;

/// One comparison: what was measured against what, in microseconds for each seed.
pub struct Line {
    pub ours: String,
    pub theirs: String,
    pub times: Vec<(f64, f64)>,
}

impl Line {
    pub fn new(ours: &str, theirs: &str) -> Line {
        Line { ours: ours.into(), theirs: theirs.into(), times: vec![] }
    }
}

pub fn median(mut times: Vec<f64>) -> f64 {
    times.sort_by(f64::total_cmp);
    times[times.len() / 2]
}

/// What a call takes of the processor, in microseconds: time that other programs take does not count.
pub fn time(call: &mut dyn FnMut()) -> f64 {
    let start = clock::thread();
    call();
    (clock::thread() - start) * 1e6
}

/// The time of each call on average over a row of them, the least of several rows; the calls take turns row by row.
pub fn times<const N: usize>(rows: usize, row: usize, mut calls: [&mut dyn FnMut(); N]) -> [f64; N] {
    let mut least = [f64::MAX; N];
    for _ in 0..rows {
        for (i, call) in calls.iter_mut().enumerate() {
            least[i] = least[i].min(time(&mut || (0..row).for_each(|_| call())) / row as f64);
        }
    }
    least
}

/// 1,000 vertices and 5,000 random edges, none anchored.
pub fn thousand(seed: u64) -> Pool {
    Pool::random(&mut Random(seed * 7919), 1000, 5000)
}

pub fn input(pool: &Pool) -> Input<'_> {
    Input { starts: &pool.starts, links: &pool.links, anchored: &pool.anchored }
}

pub fn plain(pool: &Pool) -> quick::Pool<'_> {
    quick::Pool { starts: &pool.starts, links: &pool.links }
}

/// Levels, layers and components as the planner works them out.
pub struct Sheet {
    levels: Vec<u16>,
    layers: Vec<u16>,
    components: Vec<u16>,
}

impl Sheet {
    pub fn room(n: usize) -> Sheet {
        Sheet { levels: vec![0; n], layers: vec![0; n], components: vec![0; n] }
    }

    pub fn work(&mut self, pool: &Pool) {
        planner::work(input(pool), &mut self.levels, &mut self.layers, &mut self.components).unwrap();
    }
}

/// Each call goes through as many pools in turn, so that no branch predictor learns one of them.
const POOLS: usize = 20;

fn several(seed: u64) -> Vec<Pool> {
    (0..POOLS as u64).map(|i| thousand(seed * 1000 + i)).collect()
}

pub fn working(seeds: &[u64]) -> Vec<Line> {
    let work = "fresh working: table check, levels, layers, components";
    let list = "component list: fresh working, each component with its size, in order";
    let mut lines = [
        Line::new(work, "plain Rust: core numbers by buckets, nothing else"),
        Line::new(work, "plain Rust: levels by buckets, layers, components, no check"),
        Line::new("table check", "plain Rust: core numbers by buckets, nothing else"),
        Line::new(list, "the planner's fresh working"),
        Line::new(list, "plain Rust: levels by buckets, layers, components, counted and sorted, no check"),
    ];
    for &seed in seeds {
        let pools = several(seed);
        let (mut cores, none, mut sheet) = (Cores::default(), vec![false; 1000], Sheet::room(1000));
        let (mut entries, mut count, mut expected) = ([0; 3].map(|_| vec![0u16; 1000]), 0, vec![]);
        let [ours, levels, all, check, ranked, sorted] = times(
            21,
            1,
            [
                &mut || pools.iter().for_each(|pool| sheet.work(pool)),
                &mut || {
                    for pool in &pools {
                        black_box(cores.work(black_box(plain(pool)), &none));
                    }
                },
                &mut || pools.iter().for_each(|pool| drop(black_box(quick::sheet(black_box(plain(pool)), &none)))),
                &mut || {
                    for pool in &pools {
                        black_box(planner::check(&pool.starts, &pool.links).unwrap());
                    }
                },
                &mut || {
                    for pool in &pools {
                        let [levels, sizes, numbers] = &mut entries;
                        count = planner::list_components(input(pool), levels, sizes, numbers).unwrap().count;
                    }
                },
                &mut || pools.iter().for_each(|pool| expected = quick::sheet(black_box(plain(pool)), &none).components()),
            ],
        )
        .map(|pass| pass / POOLS as f64);
        let listed: Vec<_> = (0..count).map(|i| (entries[0][i], entries[1][i], entries[2][i])).collect();
        assert_eq!(listed, expected);
        assert_eq!(cores.work(plain(&pools[POOLS - 1]), &none), sheet.levels);
        lines[0].times.push((ours, levels));
        lines[1].times.push((ours, all));
        lines[2].times.push((check, levels));
        lines[3].times.push((ranked, ours));
        lines[4].times.push((ranked, sorted));
    }
    lines.into()
}

/// The defined sheet of each pool.
fn worked(pools: &[Pool]) -> Vec<Sheet> {
    let sheet = |pool: &Pool| {
        let mut sheet = Sheet::room(pool.size());
        sheet.work(pool);
        sheet
    };
    pools.iter().map(sheet).collect()
}

pub fn sheets(seeds: &[u64]) -> Vec<Line> {
    let check = "sheet check: table check, then every entry, all accepted";
    let mut lines = [
        Line::new(check, "the planner's fresh working"),
        Line::new(check, "plain Rust: the sheet worked out and compared: levels by buckets, layers, no check of the table"),
        Line::new("sheet check: one layer too high, refused", check),
    ];
    for &seed in seeds {
        let pools = several(seed);
        let (sheets, mut wrong, mut again, none) = (worked(&pools), worked(&pools), Sheet::room(1000), vec![false; 1000]);
        wrong.iter_mut().for_each(|sheet| sheet.layers[999] += 1);
        let check = |sheets: &[Sheet], accepted: bool| {
            for (pool, sheet) in pools.iter().zip(sheets) {
                assert_eq!(planner::check_sheet(input(pool), &sheet.levels, &sheet.layers).is_ok(), accepted);
            }
        };
        let [fresh, theirs, right, refused] = times(
            21,
            1,
            [
                &mut || pools.iter().for_each(|pool| again.work(pool)),
                &mut || {
                    for (pool, sheet) in pools.iter().zip(&sheets) {
                        let (levels, layers) = quick::levels_and_layers(black_box(plain(pool)), &none);
                        assert!(levels == sheet.levels && layers == sheet.layers);
                    }
                },
                &mut || check(&sheets, true),
                &mut || check(&wrong, false),
            ],
        )
        .map(|pass| pass / POOLS as f64);
        lines[0].times.push((right, fresh));
        lines[1].times.push((right, theirs));
        lines[2].times.push((refused, right));
    }
    lines.into()
}

const SEARCH: &str = "one search with its checks of table and sheet, average over all x";

pub fn search(seeds: &[u64]) -> Vec<Line> {
    let alone = "one search without checks: a session of no names, less one fresh working, divided by the vertices";
    let mut lines = [
        Line::new(SEARCH, "the planner's fresh working"),
        Line::new(alone, "the planner's fresh working"),
        Line::new(alone, "plain Rust: core numbers by buckets with x anchored, average over all x"),
    ];
    for &seed in seeds {
        let pools = several(seed);
        let (mut marks, mut record, mut again) = (vec![0u8; 1000], Record::room(1000, 0), Sheet::room(1000));
        let (sheets, mut yields, none) = (worked(&pools), vec![], vec![false; 1000]);
        // a session without events leaves the table as it is
        let (mut lent, no_events): (Vec<Pool>, _) = (pools.iter().map(|pool| pool.lent(0)).collect(), List::default());
        let [fresh, searches, start, cores] = times(
            3,
            1,
            [
                &mut || pools.iter().for_each(|pool| again.work(pool)),
                &mut || {
                    for x in 0..1000 {
                        for (pool, sheet) in pools.iter().zip(&sheets) {
                            planner::followers(input(pool), &sheet.levels, &sheet.layers, x, &mut marks).unwrap();
                        }
                    }
                },
                &mut || lent.iter_mut().for_each(|pool| run(pool, &no_events, &mut record)),
                &mut || {
                    for pool in pools.iter().map(plain) {
                        yields = quick::net_yields(pool, &none, &quick::bare_levels(pool));
                    }
                },
            ],
        )
        .map(|pass| pass / POOLS as f64);
        assert_eq!(record.yields, yields);
        assert_eq!(record.reached, fresh_reached(plain(&pools[POOLS - 1]), &none));
        let alone = (start - fresh) / 1000.0;
        lines[0].times.push((searches / 1000.0, fresh));
        lines[1].times.push((alone, fresh));
        lines[2].times.push((alone, cores / 1000.0));
    }
    lines.into()
}

/// Every vertex's ceiling, against its search and against plain Rust.
pub fn ceiling(seeds: &[u64]) -> Vec<Line> {
    let one = "one ceiling with its checks of table and sheet, average over all x";
    let mut lines = [
        Line::new(one, SEARCH),
        Line::new(one, "plain Rust: upstair walks counted by recursion with memory, no checks, average over all x"),
    ];
    for &seed in seeds {
        let pools = several(seed);
        let (sheets, none, mut marks, mut remembered) = (worked(&pools), vec![false; 1000], vec![0u8; 1000], Remembered::default());
        let [mut ceilings, mut reached, mut expected] = [0; 3].map(|_| vec![0; 1000 * POOLS]);
        // a number for each vertex of each pool
        let fill = |numbers: &mut [u16], call: &mut dyn FnMut(&Pool, &[u16], &[u16], usize) -> u16| {
            for (i, number) in numbers.iter_mut().enumerate() {
                let (pool, Sheet { levels, layers, .. }) = (&pools[i % POOLS], &sheets[i % POOLS]);
                *number = call(black_box(pool), levels, layers, i / POOLS);
            }
        };
        let mut ceiling = |pool: &Pool, levels: &[u16], layers: &[u16], x: usize| {
            planner::ceiling(input(pool), levels, layers, x).unwrap().ceiling
        };
        let mut search = |pool: &Pool, levels: &[u16], layers: &[u16], x: usize| {
            planner::followers(input(pool), levels, layers, x, &mut marks).unwrap().reached as u16
        };
        let mut counted = |pool: &Pool, levels: &[u16], layers: &[u16], x: usize| remembered.ceiling(plain(pool), &none, levels, layers, x);
        let [ours, searches, theirs] = times(
            3,
            1,
            [
                &mut || fill(&mut ceilings, &mut ceiling),
                &mut || fill(&mut reached, &mut search),
                &mut || fill(&mut expected, &mut counted),
            ],
        )
        .map(|pass| pass / (1000 * POOLS) as f64);
        assert_eq!(ceilings, expected);
        assert!(reached.iter().zip(&ceilings).all(|(reached, ceiling)| reached <= ceiling));
        lines[0].times.push((ours, searches));
        lines[1].times.push((ours, theirs));
    }
    lines.into()
}

/// A ring of 1,000 vertices, each joined to 7 hubs too, numbered at random; and one of the ring. All are of level 9, and with that one gone
/// all fall, one after the other along the ring, so that each hub loses its neighbors one by one.
fn ring_with_hubs(seed: u64) -> (Pool, usize) {
    let mut numbers: Vec<usize> = (0..1007).collect();
    Random(seed * 15485863).shuffle(&mut numbers);
    let (hubs, ring) = numbers.split_at(7);
    let along = (0..1000).map(|i| (ring[i], ring[(i + 1) % 1000]));
    let spokes = hubs.iter().flat_map(|&u| ring.iter().map(move |&v| (u, v)));
    (Pool::of_edges(1007, along.chain(spokes), vec![0; 1007]), ring[0])
}

/// One collapse for a vertex of a pool whose sheet is worked out.
fn collapse_one(pool: &Pool, sheet: &Sheet, x: usize, marks: &mut [u8]) {
    planner::collapse(input(pool), &sheet.levels, &sheet.layers, x, marks).unwrap();
}

pub fn collapse(seeds: &[u64]) -> Vec<Line> {
    let one = "one collapse with its checks of table and sheet, average over all x";
    let mut lines = [
        Line::new(one, "the planner's fresh working"),
        Line::new(one, "plain Rust: levels by buckets twice, the second time without x's edges, no checks, average over all x"),
        Line::new("one collapse with its checks: a ring of 1,000 vertices, each joined to 7 hubs, x on the ring, all fall", "the planner's fresh working of the same pool"),
    ];
    for &seed in seeds {
        let pools = several(seed);
        let (sheets, mut again, none) = (worked(&pools), Sheet::room(1000), vec![false; 1000]);
        let (mut marks, mut expected, mut two) = (vec![0u8; 1000], vec![0u8; 1000], TwoWorkings::default());
        let [fresh, ours, theirs] = times(
            3,
            1,
            [
                &mut || pools.iter().for_each(|pool| again.work(pool)),
                &mut || {
                    for x in 0..1000 {
                        pools.iter().zip(&sheets).for_each(|(pool, sheet)| collapse_one(pool, sheet, x, &mut marks));
                    }
                },
                &mut || {
                    for x in 0..1000 {
                        pools.iter().for_each(|pool| two.collapse(black_box(plain(pool)), &none, x, &mut expected));
                    }
                },
            ],
        )
        .map(|pass| pass / POOLS as f64);
        for x in 0..1000 {
            collapse_one(&pools[0], &sheets[0], x, &mut marks);
            two.collapse(plain(&pools[0]), &none, x, &mut expected);
            assert_eq!(marks, expected);
        }
        lines[0].times.push((ours / 1000.0, fresh));
        lines[1].times.push((ours / 1000.0, theirs / 1000.0));

        let (pools, starts): (Vec<Pool>, Vec<usize>) = (0..POOLS as u64).map(|i| ring_with_hubs(seed * 1000 + i)).unzip();
        let (sheets, mut again, mut marks) = (worked(&pools), Sheet::room(1007), vec![0u8; 1007]);
        let [fresh, ours] = times(
            21,
            1,
            [
                &mut || pools.iter().for_each(|pool| again.work(pool)),
                &mut || (0..POOLS).for_each(|i| collapse_one(&pools[i], &sheets[i], starts[i], &mut marks)),
            ],
        )
        .map(|pass| pass / POOLS as f64);
        assert_eq!(marks.iter().filter(|&&mark| mark == 1).count(), 1006);
        lines[2].times.push((ours, fresh));
    }
    lines.into()
}

pub fn rounds(seeds: &[u64]) -> Vec<Line> {
    let mut line = Line::new(
        "text to sheet: 1,000 vertices, 5,000 edges, 20 rounds",
        "plain Rust: the same text to the same sheet, all levels afresh by buckets for each vertex in each round",
    );
    for &seed in seeds {
        let text = thousand(seed).text(20);
        let (mut sheet, mut length, mut expected) = (vec![0; 64320], 0, vec![]);
        let [ours, theirs] = times(
            3,
            1,
            [
                &mut || length = planner::text_to_sheet(&text, &mut sheet).unwrap(),
                &mut || expected = quick::text_to_sheet(&text, 64320).unwrap(),
            ],
        );
        assert!(sheet[..length] == expected);
        line.times.push((ours, theirs));
    }
    vec![line]
}
