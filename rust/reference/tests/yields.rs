//! Net yields, reached counts, rows redone and the choices of rounds, where they are told by hand.

use pools::Pool;
use reference::{Anchoring, Event, Record};

fn session(pool: &Pool, names: &[u16]) -> Record {
    let (graph, set) = reference::admit(&pool.starts, &pool.links, &pool.anchored).unwrap();
    reference::session(&graph, &set, &names.iter().copied().map(Event::anchor).collect::<Vec<_>>())
}

/// Whom the first round anchors, and whom it would by followers alone.
fn choices(pool: &Pool) -> [Option<usize>; 2] {
    let (graph, set) = reference::admit(&pool.starts, &pool.links, &pool.anchored).unwrap();
    let line = String::from_utf8(reference::rounds(&graph, &set, 1)).unwrap();
    let at = Anchoring::new(&graph, &set);
    // the last of equals, so from the highest down
    let free = (0..pool.size()).rev().filter(|&v| !set[v]);
    [line[18..22].parse().ok(), free.max_by_key(|&v| reference::search(&graph, &at, v).followers)]
}

#[test]
fn sessions() {
    let chain = |anchored: [u8; 4]| Pool::of_edges(4, [(0, 1), (1, 2), (2, 3)], anchored.to_vec());
    assert_eq!(session(&chain([0; 4]), &[]).yields, [0; 4]);
    assert_eq!(session(&chain([1, 0, 0, 0]), &[]).yields, [-32768, 0, 1, 2]);
    assert_eq!(session(&chain([1, 0, 0, 1]), &[]).yields, [-32768, -1, -1, -32768]);
    let record = session(&chain([0; 4]), &[0, 0, 3, 9]);
    assert_eq!((record.status, record.followers, record.recomputed), (vec![0, 16, 0, 15], vec![0, 0, 2, 0], vec![2, 0, 2, 0]));
    assert_eq!(record.stamps, [1, 3, 3, 3]);
    // 0 looks into no component: its row is redone because its level changed
    let record = session(&Pool::of_edges(3, [(0, 1), (0, 2)], vec![0, 1, 0]), &[2]);
    assert_eq!((record.recomputed, record.stamps, record.yields), (vec![1], vec![1, 0, 1], vec![-1, -32768, -32768]));
}

/// From an end of the chain its neighbor is reached and not lifted; with an end anchored all who are reached are lifted.
#[test]
fn reached() {
    let chain = |anchored: [u8; 4]| Pool::of_edges(4, [(0, 1), (1, 2), (2, 3)], anchored.to_vec());
    assert_eq!(session(&chain([0; 4]), &[]).reached, [1, 0, 0, 1]);
    assert_eq!(session(&chain([0; 4]), &[0, 9]).reached, [65535, 0, 1, 2]);
    assert_eq!(session(&chain([1, 0, 0, 0]), &[3]).reached, [65535, 0, 0, 65535]);
    // 3 has two anchored neighbors, 4 is in a triangle; from 2 between them both are reached, and 3 is lifted
    let edges = [(0, 3), (1, 3), (2, 3), (2, 4), (4, 5), (4, 6), (5, 6)];
    let record = session(&Pool::of_edges(7, edges, vec![1, 1, 0, 0, 0, 0, 0]), &[]);
    assert_eq!((record.reached, record.yields), (vec![65535, 65535, 2, 0, 0, 1, 1], vec![-32768, -32768, 0, -1, 0, 0, 0]));
}

/// It takes 4 vertices for the choice by net yield to differ from the one by followers, and 18 of their 1,024 pools. The figures were
/// counted apart from the tests.
#[test]
fn rounds() {
    let differ = |n: usize| Pool::all(n).map(|pool| choices(&pool)).filter(|[net, followers]| net != followers).count();
    assert_eq!([0, 1, 2, 3, 4, 5].map(differ), [0, 0, 0, 0, 18, 1_515]);
    assert_eq!(choices(&Pool::of_edges(4, [(0, 1), (0, 2)], vec![0, 1, 1, 0])), [Some(3), Some(0)]);
    // the greatest may be below 0
    assert_eq!(choices(&Pool::of_edges(4, [(0, 1), (1, 2), (2, 3)], vec![1, 0, 0, 1])), [Some(1), Some(1)]);
    assert_eq!(choices(&Pool::of_edges(2, [(0, 1)], vec![1, 1])), [None, None]);
}
