//! The check of a table against the naive one, on random tables, valid and damaged; its limits.

mod shared;

use planner::{Refusal, Size};
use pools::{Pool, Random};
use shared::table_size;
use std::collections::BTreeSet;

fn compare(pool: &Pool) -> Result<Size, Refusal> {
    let answer = planner::check(&pool.starts, &pool.links);
    assert_eq!(answer, table_size(pool), "{pool:?}");
    answer
}

#[test]
fn random_tables() {
    let (mut seen, mut sizes, mut random) = (BTreeSet::new(), BTreeSet::new(), Random(88172645463325252));
    let count = if pools::long() { 2000000 } else { 200000 };
    for _ in 0..count {
        let pool = Pool::random_small(&mut random, 12);
        let Size { edges, max_degree } = compare(&pool).unwrap();
        sizes.insert((edges, max_degree));
        if let Err(e) = compare(&pool.damaged(&mut random)) {
            seen.insert(e.number);
        }
    }
    println!("{count} random tables of {} sizes, each also damaged; refusals {seen:?}", sizes.len());
    assert!([1, 4, 5, 6, 7, 8].iter().all(|number| seen.contains(number)));
}

/// All tables of two vertices and up to three links, with starts and links of any small number.
#[test]
fn all_small_tables() {
    let mut count = 0;
    for starts in 0..4 * 4 * 4u16 {
        for length in 0..4u32 {
            for links in 0..3u16.pow(length) {
                let starts = vec![starts / 16, starts / 4 % 4, starts % 4];
                let links = (0..length).map(|i| links / 3u16.pow(i) % 3).collect();
                let _ = compare(&Pool { starts, links, anchored: vec![] });
                count += 1;
            }
        }
    }
    println!("{count} small tables");
}

#[test]
fn refusals_and_limits() {
    for (pool, e) in shared::broken() {
        assert_eq!(compare(&pool).is_err(), e.number < 9);
        if e.number < 9 {
            assert_eq!(compare(&pool), Err(e), "{pool:?}");
        }
    }
    assert_eq!(planner::check(&[0; 1025], &[]), Ok(Size { edges: 0, max_degree: 0 }));
    assert_eq!(planner::check(&[0; 1026], &[]), Err(Refusal { number: 2, place: 0 }));
    assert_eq!(planner::check(&[0], &[]), Ok(Size { edges: 0, max_degree: 0 }));
    let both = (0..64).flat_map(|u| (64..192).map(move |v| (u, v)));
    let full = Pool::of_edges(192, both.clone(), vec![]);
    assert_eq!(full.links.len(), 16384);
    assert_eq!(compare(&full), Ok(Size { edges: 8192, max_degree: 128 }));
    let more = Pool::of_edges(192, both.chain([(0, 1)]), vec![]);
    assert_eq!(more.links.len(), 16386);
    assert_eq!(compare(&more), Err(Refusal { number: 3, place: 0 }));
}
