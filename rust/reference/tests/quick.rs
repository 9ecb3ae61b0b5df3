//! The quick working against the naive one.

use pools::{Pool, Random};
use reference::{quick, Event, Record};
use std::collections::BTreeMap;

fn plain(pool: &Pool) -> quick::Pool<'_> {
    quick::Pool { starts: &pool.starts, links: &pool.links }
}

fn compare_session(pool: &Pool, events: &[Event]) -> Record {
    let (graph, set) = reference::admit(&pool.starts, &pool.links, &pool.anchored).unwrap();
    let record = reference::session(&graph, &set, events);
    assert_eq!(quick::session(plain(pool), &set, events), record, "{pool:?} {events:?}");
    record
}

fn compare(pool: &Pool, rounds: usize) {
    let (graph, set) = reference::admit(&pool.starts, &pool.links, &pool.anchored).unwrap();
    let plain = plain(pool);
    assert_eq!(quick::size(plain), reference::size(&graph), "{pool:?}");
    let at = reference::Anchoring::new(&graph, &set);
    let sheet = quick::sheet(plain, &set);
    assert_eq!(sheet, at.sheet, "{pool:?}");
    for x in (0..pool.size()).filter(|&x| !set[x]) {
        assert_eq!(quick::search(plain, &set, &sheet, x), reference::search(&graph, &at, x), "{pool:?} {x}");
    }
    for x in 0..pool.size() {
        assert_eq!(quick::collapse(plain, &set, x), reference::collapse(&graph, &set, x), "{pool:?} {x}");
    }
    assert_eq!(quick::rounds(plain, &set, rounds), reference::rounds(&graph, &set, rounds), "{pool:?}");
}

#[test]
fn quick_is_naive() {
    let (mut random, mut statuses) = (Random(362436069), BTreeMap::new());
    for n in 0..=4 {
        for pool in Pool::all(n) {
            let names: Vec<Event> = (0..n as u16 + 1).rev().map(Event::anchor).collect();
            compare(&pool, n + 1);
            compare_session(&pool, &names);
        }
    }
    for i in 0..if pools::long() { 20000 } else { 2000 } {
        let pool = Pool::random_small(&mut random, if i % 20 == 0 { 30 } else { 12 });
        compare(&pool, random.below(4));
        let length = random.below(24);
        let events = pool.random_events(&mut random, length);
        let record = compare_session(&pool, &events);
        for (event, status) in events.iter().zip(record.status) {
            *statuses.entry((event.kind.min(3), status)).or_insert(0) += 1;
        }
    }
    println!("events by kind and status: {statuses:?}");
    let met: Vec<(u16, u16)> = statuses.into_iter().filter(|&(_, count)| count > 40).map(|(key, _)| key).collect();
    assert_eq!(met, [(0, 0), (0, 15), (0, 16), (1, 0), (1, 6), (1, 15), (1, 22), (2, 0), (2, 6), (2, 15), (2, 22), (3, 10)]);
}

/// Every event on every pool of up to 3 vertices, and after it every other one.
#[test]
fn all_lists_of_two() {
    let mut count = 0;
    for pool in (0..=3).flat_map(Pool::all) {
        let events = pool.all_events();
        for &first in &events {
            for &second in &events {
                compare_session(&pool, &[first, second]);
                count += 1;
            }
        }
    }
    // 4, 11, 22 and 37 events on 1, 2, 8 and 64 pools
    assert_eq!(count, 16 + 2 * 121 + 8 * 484 + 64 * 1369);
}
