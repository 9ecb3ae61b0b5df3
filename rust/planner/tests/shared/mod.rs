//! What the tests of all operations share; each of them uses some of it.
#![allow(dead_code)]

pub mod cases;
#[path = "../../src/exports.rs"]
pub mod exports;
pub mod faults;
pub mod houses;
pub mod sessions;
pub mod sheets;
pub mod steps;
pub mod terms;

use planner::{Input, Refusal, Size};
use pools::{Pool, Random};
use reference::quick;
use std::collections::BTreeSet;

pub fn input(pool: &Pool) -> Input<'_> {
    Input { starts: &pool.starts, links: &pool.links, anchored: &pool.anchored }
}

pub fn refusal((number, place): reference::Refusal) -> Refusal {
    Refusal { number: number as u64, place }
}

pub fn size(reference::Size { edges, max_degree }: reference::Size) -> Size {
    Size { edges, max_degree }
}

/// What the naive check of the table answers: its size, or why it is refused.
pub fn table_size(pool: &Pool) -> Result<Size, Refusal> {
    reference::check_table(&pool.starts, &pool.links).map(|graph| size(reference::size(&graph))).map_err(refusal)
}

/// A slice's contents that no answer gives by chance.
pub fn held(len: usize, salt: u16) -> Vec<u16> {
    (0..len).map(|i| 40000 + salt * 1100 + i as u16).collect()
}

/// Bytes that no sheet has.
pub fn held_bytes(len: usize) -> Vec<u8> {
    (0..len).map(|i| 128 + (i % 101) as u8).collect()
}

/// Every graph of up to `most` vertices with every anchor set, none twice. On n vertices there are 2^(n(n-1)/2) graphs, each with 2^n
/// anchor sets: 1, 2, 8, 64, 1,024 and 32,768 pools for n from 0 to 5.
pub fn small_pools(most: usize) -> BTreeSet<Pool> {
    let pools: BTreeSet<Pool> = (0..=most).flat_map(Pool::all).collect();
    assert_eq!(pools.len(), (0..=most).map(|n| 1 << (n * (n + 1) / 2)).sum());
    pools
}

/// The same, those of one table together.
pub fn small_pools_by_table(most: usize) -> Vec<Vec<Pool>> {
    let pools: Vec<Pool> = small_pools(most).into_iter().collect();
    pools.chunk_by(|a, b| a.starts == b.starts && a.links == b.links).map(<[Pool]>::to_vec).collect()
}

/// Four random graphs of 1,024 vertices, sparse to full, with some of the vertices anchored.
pub fn large_pools() -> [Pool; 4] {
    let mut random = Random(123456789);
    [500, 1500, 4000, 8192].map(|m| {
        let mut pool = Pool::random(&mut random, 1024, m);
        for _ in 0..random.below(60) {
            pool.anchored[random.below(1024)] = 1;
        }
        pool
    })
}

/// A star of which all but the middle, 0, are anchored: with a level of 1,023 and a bare level of 1, 0 has the least net yield there is.
pub fn least_yield() -> Pool {
    Pool::of_edges(1024, (1..1024).map(|v| (0, v)), [vec![0], vec![1; 1023]].concat())
}

/// Vertex 1,023 lifts all others, from level 2 to level 3, and has climbed nothing itself: the greatest net yield there is. In all each of
/// the others has three neighbors or more, 0 by vertex 1,023; without that one they go in rising order, each with two left behind it.
pub fn greatest_yield() -> Pool {
    let behind = |v: usize| [v + 1, if v == 500 { 1022 } else { v + 2 }];
    let edges = (0..1022).flat_map(|v| behind(v).map(|u| (v, u.min(1022))));
    Pool::of_edges(1024, edges.chain([(0, 1023)]), vec![0; 1024])
}

/// The refusals that damaged pools of few vertices meet.
pub const DAMAGES: [u64; 8] = [1, 4, 5, 6, 7, 8, 9, 10];

/// The lengths next to the right one.
pub fn wrong_lengths(right: usize) -> impl Iterator<Item = usize> {
    right.checked_sub(1).into_iter().chain([right + 1])
}

pub fn plain(pool: &Pool) -> quick::Pool<'_> {
    quick::Pool { starts: &pool.starts, links: &pool.links }
}

/// A page of docs/.
pub fn page(name: &str) -> String {
    std::fs::read_to_string(std::path::Path::new(env!("CARGO_MANIFEST_DIR")).join("../../docs").join(name)).unwrap()
}

/// Its examples: of each row of its table what stands between backquotes.
pub fn page_examples(name: &str) -> Vec<Vec<String>> {
    let page = page(name);
    let rows = page.lines().filter(|line| line.starts_with("| `"));
    rows.map(|row| row.split('`').skip(1).step_by(2).map(str::to_owned).collect()).collect()
}

/// The levels by the planner's own fresh working.
pub fn fresh_levels(pool: &Pool) -> Vec<u16> {
    let [mut levels, mut layers, mut components] = [0; 3].map(|_| vec![0; pool.size()]);
    assert_eq!(planner::work(input(pool), &mut levels, &mut layers, &mut components), table_size(pool), "{pool:?}");
    levels
}

/// Numbers that are no vertex; with only 16 or 32 bits kept some of them would be vertex 0.
pub fn strangers(n: usize) -> [usize; 5] {
    [n, n + 1, 1 << 16, 1 << 32, usize::MAX]
}

/// The anchor set that sound bytes give.
pub fn anchor_set(pool: &Pool) -> Vec<bool> {
    pool.anchored.iter().map(|&byte| byte == 1).collect()
}

/// Pools that break a rule of the table or of the bytes, each with its refusal.
pub fn broken() -> Vec<(Pool, Refusal)> {
    let pool = |starts: &[u16], links: &[u16], anchored: &[u8]| Pool {
        starts: starts.to_vec(),
        links: links.to_vec(),
        anchored: anchored.to_vec(),
    };
    let chain = pool(&[0, 1, 3, 5, 6], &[1, 0, 2, 1, 3, 2], &[0; 4]);
    let with_links = |links: &[u16]| Pool { links: links.to_vec(), ..chain.clone() };
    let with_starts = |starts: &[u16]| Pool { starts: starts.to_vec(), ..chain.clone() };
    let with_bytes = |anchored: &[u8]| Pool { anchored: anchored.to_vec(), ..chain.clone() };
    let cases = [
        (pool(&[], &[], &[]), 1, 0),
        (pool(&[], &[7], &[1]), 1, 0),
        (pool(&[0; 1026], &[], &[0; 1025]), 2, 0),
        (pool(&[0; 2], &[0; 16385], &[0]), 3, 0),
        (with_starts(&[1, 1, 3, 5, 6]), 4, 0),
        (with_starts(&[0, 3, 1, 5, 6]), 4, 2),
        (with_starts(&[0, 1, 3, 5, 5]), 4, 4),
        (pool(&[1], &[], &[]), 4, 0),
        (with_links(&[1, 0, 2, 1, 4, 2]), 5, 2),
        (with_links(&[1, 0, 2, 1, 3, 65535]), 5, 3),
        (with_links(&[1, 0, 1, 1, 3, 2]), 6, 1),
        (with_links(&[1, 0, 2, 3, 1, 2]), 7, 2),
        (with_links(&[1, 0, 0, 1, 3, 2]), 7, 1),
        (with_links(&[1, 0, 3, 1, 3, 2]), 8, 1),
        (pool(&[0, 0, 1], &[0], &[0; 2]), 8, 1),
        (with_bytes(&[0; 3]), 9, 0),
        (with_bytes(&[0; 5]), 9, 0),
        (with_bytes(&[0, 1, 2, 3]), 10, 2),
        // two at once: the lower number is told
        (pool(&[0; 1026], &[0; 16385], &[]), 2, 0),
        (pool(&[1; 2], &[0; 16385], &[0]), 3, 0),
        (Pool { links: vec![9; 6], ..with_starts(&[0, 3, 1, 5, 6]) }, 4, 2),
        (with_links(&[0, 0, 2, 1, 9, 2]), 5, 2),
        (with_links(&[1, 2, 0, 1, 2, 2]), 6, 2),
        (with_links(&[2, 0, 2, 3, 1, 2]), 7, 2),
        (Pool { anchored: vec![2; 3], ..with_links(&[1, 0, 3, 1, 3, 2]) }, 8, 1),
        (with_bytes(&[2; 5]), 9, 0),
    ];
    cases.into_iter().map(|(pool, number, place)| (pool, Refusal { number, place })).collect()
}
