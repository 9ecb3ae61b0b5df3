//! Events that add and drop edges, where they are told by hand, by the naive working and by the quick one.

use pools::Pool;
use reference::{admit_session, quick, Call, Event, Record};

/// An event by its kind: anchor, add, drop.
fn event([kind, first, second]: [u16; 3]) -> Event {
    Event { kind, first, second }
}

fn session(pool: &Pool, events: &[[u16; 3]]) -> Record {
    let (graph, set) = reference::admit(&pool.starts, &pool.links, &pool.anchored).unwrap();
    let events: Vec<Event> = events.iter().copied().map(event).collect();
    let record = quick::session(quick::Pool { starts: &pool.starts, links: &pool.links }, &set, &events);
    if pool.size() < 50 {
        assert_eq!(reference::session(&graph, &set, &events), record, "{pool:?} {events:?}");
    }
    record
}

/// Rows redone by one event: how many, who is stamped, and the yields.
fn redone(edges: &[(usize, usize)], anchored: &[u8], event: [u16; 3]) -> (u16, Vec<u16>, Vec<i16>) {
    let record = session(&Pool::of_edges(anchored.len(), edges.iter().copied(), anchored.to_vec()), &[event]);
    assert_eq!((record.status, record.followers), (vec![0], vec![0]));
    (record.recomputed[0], record.stamps, record.yields)
}

/// What brings a row by itself.
#[test]
fn clauses() {
    const NO: i16 = -32768;
    // the ring stays one component of level 2, with an edge more inside: 2 and 3 now look into it
    assert_eq!(redone(&[(0, 2), (0, 3), (1, 2), (1, 3)], &[0; 4], [1, 0, 1]), (4, vec![1; 4], vec![0; 4]));
    // 1 looks into nothing that changed and keeps both levels, and its yield changes: it would lift 0
    assert_eq!(redone(&[(0, 3), (0, 4), (1, 2)], &[0, 0, 0, 1, 1], [1, 0, 1]), (3, vec![1, 1, 1, 0, 0], vec![-1, 1, 1, NO, NO]));
    // two anchors are joined: of 0 only the bare level changes, from 1 to 2
    assert_eq!(redone(&[(0, 1), (0, 2)], &[0, 1, 1], [1, 1, 2]), (1, vec![1, 0, 0], vec![0, NO, NO]));
    assert_eq!(redone(&[(0, 1), (0, 2), (1, 2)], &[0, 1, 1], [2, 1, 2]), (1, vec![1, 0, 0], vec![-1, NO, NO]));
    // nobody looks, no level changes, both ends are anchored
    assert_eq!(redone(&[(0, 1)], &[1, 1], [2, 0, 1]), (0, vec![0, 0], vec![NO, NO]));
}

#[test]
fn statuses() {
    let pool = Pool::of_edges(4, [(0, 1), (1, 2), (2, 3)], vec![0; 4]);
    // the kind, then equal numbers, then unknown ones, then what is there
    let refused = [
        ([3, 9, 9], 10), ([65535, 0, 1], 10), ([1, 9, 9], 6), ([2, 0, 0], 6), ([1, 0, 4], 15), ([2, 4, 0], 15), ([0, 4, 0], 15),
        ([1, 2, 1], 22), ([2, 3, 0], 22),
    ];
    let events: Vec<[u16; 3]> = refused.iter().map(|&(event, _)| event).collect();
    let record = session(&pool, &events);
    assert_eq!(record.status, refused.map(|(_, status)| status));
    assert_eq!((record.stamps, record.starts, record.links), (vec![0; 4], pool.starts.clone(), pool.links.clone()));
    // the second number of an anchoring does not matter
    let record = session(&pool, &[[0, 0, 0], [0, 0, 9], [1, 3, 0], [2, 1, 2], [2, 2, 1]]);
    assert_eq!((record.status, record.recomputed), (vec![0, 16, 0, 0, 22], vec![2, 0, 3, 3, 0]));
    assert_eq!((record.starts, record.links), (vec![0, 2, 3, 4, 6], vec![1, 3, 0, 3, 0, 2]));
    assert_eq!((record.stamps, record.yields), (vec![1, 4, 4, 4], vec![-32768, 0, 1, 0]));
}

/// 22 and 23 where no two links more have a place.
#[test]
fn full_table() {
    let both = (0..64).flat_map(|u| (64..192).map(move |v| (u, v)));
    let full = Pool::of_edges(192, both, vec![0; 192]);
    let events = [[1, 0, 1], [1, 0, 64], [2, 0, 1], [2, 64, 0], [1, 0, 1], [1, 1, 0], [1, 0, 64], [0, 0, 0]];
    let record = session(&full, &events);
    assert_eq!(record.status, [23, 22, 22, 0, 0, 22, 23, 0]);
    assert_eq!((record.starts[192], record.links.len()), (16384, 16384));
}

/// The order of a call's tests, by what is left wrong when the first is mended.
#[test]
fn order_of_refusals() {
    let (long, short) = (vec![0u16; 4097], vec![0u16; 4096]);
    let refusal = |starts: &[u16], links: &[u16], given: &[u8], [kinds, firsts]: [&[u16]; 2], n: usize, m: usize| {
        let call = Call { starts, links, given, kinds, firsts, seconds: firsts, for_vertices: [n; 7], for_events: [m; 3] };
        admit_session(&call).err()
    };
    let links = |used: &[u16], places: usize| [used, &vec![7; places - used.len()]].concat();
    let few = links(&[], 3);
    assert_eq!(refusal(&[], &few, &[2], [&long, &short], 3, 3), Some((1, 0)));
    assert_eq!(refusal(&[16385; 1026], &few, &[2], [&long, &short], 3, 3), Some((2, 0)));
    assert_eq!(refusal(&[5, 16385], &few, &[2], [&long, &short], 3, 3), Some((12, 0)));
    assert_eq!(refusal(&[5, 16385], &links(&[], 16384), &[2], [&long, &short], 3, 3), Some((3, 0)));
    assert_eq!(refusal(&[5, 16384], &links(&[], 16384), &[2], [&long, &short], 3, 3), Some((4, 0)));
    assert_eq!(refusal(&[0, 9, 2], &links(&[], 16384), &[2], [&long, &short], 3, 3), Some((4, 2)));
    assert_eq!(refusal(&[0, 1, 2], &links(&[1, 2], 16384), &[2], [&long, &short], 3, 3), Some((5, 1)));
    assert_eq!(refusal(&[0, 1, 2], &links(&[1, 1], 16384), &[2], [&long, &short], 3, 3), Some((6, 1)));
    assert_eq!(refusal(&[0, 1, 3, 3], &links(&[2, 2, 0], 16384), &[2], [&long, &short], 3, 3), Some((7, 1)));
    assert_eq!(refusal(&[0, 0, 1], &links(&[0], 16384), &[2], [&long, &short], 3, 3), Some((8, 1)));
    assert_eq!(refusal(&[0, 1, 2], &links(&[1, 0], 16384), &[2], [&long, &long], 3, 3), Some((9, 0)));
    assert_eq!(refusal(&[0, 1, 2], &links(&[1, 0], 16384), &[0, 2], [&long, &short], 3, 3), Some((9, 0)));
    assert_eq!(refusal(&[0, 1, 2], &links(&[1, 0], 16384), &[0, 2], [&long, &long], 3, 3), Some((10, 1)));
    assert_eq!(refusal(&[0, 1, 2], &links(&[1, 0], 16384), &[0, 1], [&long, &long], 3, 3), Some((11, 0)));
    assert_eq!(refusal(&[0, 1, 2], &links(&[1, 0], 16384), &[0, 1], [&short, &short], 2, 3), Some((12, 0)));
    assert_eq!(refusal(&[0, 1, 2], &links(&[1, 0], 16384), &[0, 1], [&short, &short], 3, 4096), Some((12, 0)));
    assert_eq!(refusal(&[0, 1, 2], &links(&[1, 0], 16384), &[0, 1], [&short, &short], 2, 4096), None);
    assert_eq!(refusal(&[0], &links(&[], 16384), &[], [&[], &[]], 0, 0), None);
}
