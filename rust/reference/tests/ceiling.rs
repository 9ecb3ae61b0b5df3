//! The ceiling of a search, where it is told by hand, and by the two quicker workings; the order of the tests before it.

use pools::{Pool, Random};
use reference::quick::{self, Remembered};
use reference::Anchoring;

/// The walks before they are capped, and how many vertices they reach. The ceiling is that of all three workings.
fn walks(pool: &Pool, x: usize) -> (u128, usize) {
    let (graph, set) = reference::admit(&pool.starts, &pool.links, &pool.anchored).unwrap();
    let (at, plain) = (Anchoring::new(&graph, &set), quick::Pool { starts: &pool.starts, links: &pool.links });
    let (walks, ceiling) = (reference::upstair_walks(&graph, &at, x), reference::ceiling(&graph, &at, x));
    assert_eq!(ceiling as u128, walks.min(65535), "{pool:?} {x}");
    assert_eq!(quick::ceiling(plain, &set, &at.sheet, x), ceiling, "{pool:?} {x}");
    assert_eq!(Remembered::default().ceiling(plain, &set, &at.sheet.level, &at.sheet.layer, x), ceiling, "{pool:?} {x}");
    let reached = reference::search(&graph, &at, x).candidates;
    assert!(reached as u128 <= walks);
    (walks, reached)
}

#[test]
fn by_hand() {
    let chain = |anchored: [u8; 4]| Pool::of_edges(4, [(0, 1), (1, 2), (2, 3)], anchored.to_vec());
    assert_eq!([0, 1, 2, 3].map(|x| walks(&chain([0; 4]), x).0), [1, 0, 0, 1]);
    assert_eq!([1, 2, 3].map(|x| walks(&chain([1, 0, 0, 0]), x).0), [0, 1, 2]);
    // from 3 to 0, to 1, and over 1 to 0
    let two_ways = Pool::of_edges(5, [(0, 1), (0, 2), (0, 3), (0, 4), (1, 2), (1, 3)], vec![0, 0, 1, 0, 1]);
    assert_eq!(walks(&two_ways, 3), (3, 2));
}

/// Document 000, example 4.18: u1 to u5 are 0 to 4, of the pairs (2, 1), (2, 2), (2, 3), (3, 1) and (3, 1); 3 and 4 are each one of four
/// that are all joined.
#[test]
fn example_of_document_000() {
    let edges = [(0, 1), (0, 3), (1, 2), (1, 4), (2, 3), (2, 4)];
    let fours = [[3, 5, 6, 7], [4, 8, 9, 10]].map(|[a, b, c, d]| [(a, b), (a, c), (a, d), (b, c), (b, d), (c, d)]).concat();
    let pool = Pool::of_edges(11, edges.into_iter().chain(fours), vec![0; 11]);
    let (graph, set) = reference::admit(&pool.starts, &pool.links, &pool.anchored).unwrap();
    let sheet = reference::sheet(&graph, &set);
    assert_eq!((&sheet.level[..5], &sheet.layer[..5]), (&[2, 2, 2, 3, 3][..], &[1, 2, 3, 1, 1][..]));
    assert_eq!([0, 1, 2, 3, 4].map(|x| walks(&pool, x)), [(3, 3), (2, 2), (2, 2), (0, 0), (0, 0)]);
}

/// Ladders of so many walks, about as many as the cap and more than any type holds.
#[test]
fn ladders() {
    for rungs in 2..=40 {
        let (ladder, top) = (Pool::ladder(rungs), 2 * rungs);
        assert_eq!(walks(&ladder, 0), ((2 << rungs) - 2, 2 * rungs));
        assert_eq!(walks(&ladder, 1), ((1 << rungs) - 2, 2 * rungs - 2));
        assert_eq!(walks(&Pool::beside_ladder(rungs, &[0]), top + 2), ((2 << rungs) - 1, top + 1));
        assert_eq!(walks(&Pool::beside_ladder(rungs, &[0, top]), top + 2), (2 << rungs, top + 1));
    }
    assert_eq!([walks(&Pool::ladder(15), 0).0, walks(&Pool::beside_ladder(15, &[0, 30]), 32).0], [65534, 65536]);
    assert_eq!(walks(&Pool::ladder(140), 0), (u128::MAX, 280));
}

/// The order of the tests, by what is left wrong when the first is mended: the chain 0-1-2-3 with 0 anchored.
#[test]
fn order_of_refusals() {
    let pool = Pool::of_edges(4, [(0, 1), (1, 2), (2, 3)], vec![1, 0, 0, 0]);
    let (graph, set) = reference::admit(&pool.starts, &pool.links, &pool.anchored).unwrap();
    let refusal = |levels: &[u16], layers: &[u16], x: usize| reference::check_search(&graph, &set, levels, layers, x).err();
    assert_eq!(refusal(&[65535, 1, 1, 2, 1], &[0, 9, 3, 0], 4), Some((13, 0)));
    assert_eq!(refusal(&[65535, 1, 1, 2], &[0, 9, 3, 0], 4), Some((14, 3)));
    assert_eq!(refusal(&[65535, 1, 1, 2], &[0, 9, 3, 1], 4), Some((19, 3)));
    assert_eq!(refusal(&[65535, 1, 1, 1], &[0, 9, 1, 1], 4), Some((20, 2)));
    assert_eq!(refusal(&[65535, 1, 1, 1], &[0, 9, 2, 1], 0), Some((21, 1)));
    assert_eq!(refusal(&[65535, 1, 1, 1], &[0, 3, 2, 1], 4), Some((15, 4)));
    assert_eq!(refusal(&[65535, 1, 1, 1], &[0, 3, 2, 1], 0), Some((16, 0)));
    assert_eq!(refusal(&[65535, 1, 1, 1], &[0, 3, 2, 1], 1), None);
}

/// It takes 5 vertices for a ceiling to be above the reached count, and 510 calls on them. The figures were counted apart from the tests.
#[test]
fn quick_is_naive() {
    let free = |pool: &Pool| (0..pool.size()).filter(|&x| pool.anchored[x] == 0).collect::<Vec<_>>();
    let above = |pool: &Pool| free(pool).into_iter().map(|x| walks(pool, x)).filter(|&(walks, reached)| walks > reached as u128).count();
    assert_eq!([0, 1, 2, 3, 4, 5].map(|n| Pool::all(n).map(|pool| above(&pool)).sum::<usize>()), [0, 0, 0, 0, 0, 510]);
    let (mut random, mut count) = (Random(1812433253), 0);
    for i in 0..if pools::long() { 20000 } else { 2000 } {
        count += above(&Pool::random_small(&mut random, if i % 20 == 0 { 40 } else { 12 }));
    }
    println!("random pools: {count} ceilings above the reached count");
    assert!(count > 500);
}
