//! The first day under a level, where it is told by hand, and by the quick working.

use pools::{Pool, Random};
use reference::{quick, Term, TermLists};
use std::ops::Range;

/// Each term as vertex, first day and end day.
fn terms(list: &[[u16; 3]]) -> Vec<Term> {
    list.iter().map(|&[vertex, first, end]| Term { vertex, first, end }).collect()
}

/// By both workings.
fn first_day(pool: &Pool, terms: &[Term], days: Range<u16>, x: usize, k: u16) -> Option<u16> {
    let graph = reference::check_table(&pool.starts, &pool.links).unwrap();
    let day = reference::first_day(&graph, terms, days.clone(), x, k);
    let plain = quick::Pool { starts: &pool.starts, links: &pool.links };
    assert_eq!(quick::first_day(plain, terms, days.clone(), x, k), day, "{pool:?} {terms:?} {days:?} {x} {k}");
    day
}

/// The chain 0-1-2-3: with 0 and 3 anchored 1 and 2 have level 2, else level 1.
#[test]
fn by_hand() {
    let chain = Pool::of_edges(4, [(0, 1), (1, 2), (2, 3)], vec![0; 4]);
    let day = |list: &[[u16; 3]], days, x, k| first_day(&chain, &terms(list), days, x, k);
    let both = [[0, 2, 9], [3, 4, 7]];
    assert_eq!(day(&both, 0..20, 1, 2), Some(0));
    assert_eq!(day(&both, 4..20, 1, 2), Some(7));
    assert_eq!(day(&both, 4..8, 1, 2), Some(7));
    assert_eq!(day(&both, 4..7, 1, 2), None);
    assert_eq!(day(&both, 0..20, 1, 1), None);
    assert_eq!(day(&both, 4..20, 1, 3), Some(4));
    for (from, until) in [(5, 5), (5, 4), (65535, 0)] {
        assert_eq!(day(&both, from..until, 1, 3), None);
    }
    // one term follows the other, and for a day nobody has one
    assert_eq!(day(&[[0, 0, 50], [3, 4, 7], [3, 7, 9]], 4..20, 1, 2), Some(9));
    assert_eq!(day(&[[0, 0, 50], [3, 4, 7], [3, 8, 9]], 4..20, 1, 2), Some(7));
    assert_eq!(day(&[[0, 0, 50], [3, 4, 9], [3, 5, 6]], 4..20, 1, 2), Some(9));
    // an anchored vertex is under no k
    assert_eq!(day(&both, 4..20, 3, 65535), Some(7));
    assert_eq!(day(&both, 4..7, 3, 65535), None);
    assert_eq!(day(&[], 0..9, 3, 0), None);
    assert_eq!(day(&[[0, 0, 65535]], 0..65535, 0, 65535), None);
    assert_eq!(day(&[[0, 0, 65534]], 0..65535, 0, 1), None);
    assert_eq!(day(&[[0, 0, 65534]], 0..65535, 0, 2), Some(65534));
}

/// The order of the tests, by what is left wrong when the first is mended.
#[test]
fn order_of_refusals() {
    let refusal = |starts: &[u16], vertices: &[u16], firsts: &[u16], ends: &[u16], x: usize| {
        reference::admit_terms(starts, &[1, 0], TermLists { vertices, firsts, ends }, x).err()
    };
    let table = [0, 1, 2];
    // the first two terms are wrong in their days, the last two in their vertices
    let (wrong, firsts, ends) = ([[0; 298].as_slice(), &[9, 7]].concat(), [5; 300], [[4, 5].as_slice(), &[6; 298]].concat());
    assert_eq!(refusal(&[0, 1, 1], &wrong, &[], &ends, 2), Some((4, 2)));
    assert_eq!(refusal(&table, &wrong, &[], &ends, 2), Some((9, 0)));
    assert_eq!(refusal(&table, &wrong, &firsts, &[], 2), Some((9, 0)));
    assert_eq!(refusal(&table, &[], &firsts, &ends, 2), Some((9, 0)));
    assert_eq!(refusal(&table, &wrong, &firsts, &ends, 2), Some((15, 9)));
    assert_eq!(refusal(&table, &[1; 300], &firsts, &ends, 2), Some((15, 2)));
    assert_eq!(refusal(&table, &[1; 300], &firsts, &ends, 1), Some((24, 0)));
    assert_eq!(refusal(&table, &[1; 257], &firsts[..257], &ends[..257], 1), Some((24, 0)));
    assert_eq!(refusal(&table, &[1; 256], &firsts[..256], &ends[..256], 1), Some((25, 0)));
    assert_eq!(refusal(&table, &[1; 255], &firsts[1..256], &ends[1..256], 1), Some((25, 0)));
    assert_eq!(refusal(&table, &[1; 3], &[5; 3], &[6, 6, 0], 1), Some((25, 2)));
    assert_eq!(refusal(&table, &[1; 256], &firsts[2..258], &ends[2..258], 1), None);
    assert_eq!(refusal(&table, &[], &[], &[], 0), None);
}

#[test]
fn quick_is_naive() {
    let (mut random, mut met) = (Random(521288629), [0; 3]);
    for i in 0..if pools::long() { 40000 } else { 4000 } {
        let mut pool = Pool::random_small(&mut random, if i % 20 == 0 { 30 } else { 12 });
        pool.anchored.fill(0);
        let length = random.below(3 * pool.size() + 1);
        let terms = pool.random_terms(&mut random, length, 12);
        for x in 0..pool.size() {
            let (from, until, k) = (random.below(30) as u16, random.below(40) as u16, random.below(6) as u16);
            let day = first_day(&pool, &terms, from..until, x, k);
            met[day.map_or(0, |day| 1 + (day > from) as usize)] += 1;
        }
    }
    println!("none, the span's first day, a later one: {met:?}");
    assert!(met.into_iter().all(|count| count > 500));
}
