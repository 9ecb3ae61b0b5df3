//! The size of a table, where it is told by hand and by figures counted apart.

use pools::Pool;
use reference::{quick, Event, Size};
use std::collections::BTreeMap;

fn size(pool: &Pool) -> [usize; 2] {
    let graph = reference::check_table(&pool.starts, &pool.links).unwrap();
    let Size { edges, max_degree } = reference::size(&graph);
    assert_eq!(quick::size(quick::Pool { starts: &pool.starts, links: &pool.links }), Size { edges, max_degree });
    [edges, max_degree]
}

fn of_edges(n: usize, edges: &[(usize, usize)]) -> Pool {
    Pool::of_edges(n, edges.iter().copied(), vec![0; n])
}

#[test]
fn by_hand() {
    let cases: [(usize, &[(usize, usize)], [usize; 2]); 9] = [
        (0, &[], [0, 0]),
        (1, &[], [0, 0]),
        (7, &[], [0, 0]),
        (2, &[(0, 1)], [1, 1]),
        (4, &[(0, 1), (1, 2), (2, 3)], [3, 2]),
        (4, &[(0, 1), (0, 2), (0, 3)], [3, 3]),
        (4, &[(0, 3), (1, 3), (2, 3)], [3, 3]),
        (4, &[(0, 1), (1, 2), (2, 3), (0, 3)], [4, 2]),
        (5, &[(1, 2), (1, 3), (2, 3), (3, 4)], [4, 3]),
    ];
    for (n, edges, told) in cases {
        assert_eq!(size(&of_edges(n, edges)), told, "{edges:?}");
    }
    let star: Vec<(usize, usize)> = (1..1024).map(|v| (0, v)).collect();
    assert_eq!(size(&of_edges(1024, &star)), [1023, 1023]);
    let both: Vec<(usize, usize)> = (0..64).flat_map(|u| (64..192).map(move |v| (u, v))).collect();
    assert_eq!(size(&of_edges(192, &both)), [8192, 128]);
}

/// All graphs of up to 5 vertices. On n vertices as many have m edges as there are ways to choose them; how many have each greatest degree
/// was counted apart.
#[test]
fn all_small_graphs() {
    let (mut edges, mut degrees) = (BTreeMap::new(), BTreeMap::new());
    for pool in (0..=5).flat_map(Pool::all_free) {
        let [m, most] = size(&pool);
        assert_eq!((m, pool.links.len()), (pool.edges().len(), 2 * m));
        *edges.entry(m).or_insert(0) += 1;
        *degrees.entry(most).or_insert(0) += 1;
    }
    assert!(edges.into_values().eq([6, 20, 63, 141, 225, 258, 211, 120, 45, 10, 1]));
    assert!(degrees.into_iter().eq([(0, 6), (1, 38), (2, 262), (3, 538), (4, 256)]));
}

/// A session answers the size of the table as it was before its events.
#[test]
fn sessions() {
    let chain = of_edges(4, &[(0, 1), (1, 2), (2, 3)]);
    let graph = reference::check_table(&chain.starts, &chain.links).unwrap();
    for events in [&[][..], &[Event::add_edge(1, 3)], &[Event::drop_edge(0, 1), Event::drop_edge(1, 2), Event::anchor(0)]] {
        let record = reference::session(&graph, &[false; 4], events);
        assert_eq!(record.size, Size { edges: 3, max_degree: 2 });
        assert_eq!(quick::session(quick::Pool { starts: &chain.starts, links: &chain.links }, &[false; 4], events), record);
    }
}
