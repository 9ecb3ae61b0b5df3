//! The stack that calls take, at the limits of riders: as much as include/planner.h states is enough for each. Nothing proves it.

mod shared;

use planner::{Events, Record, Table, Term, ADD_EDGE, ANCHOR, DROP_EDGE};
use pools::Pool;
use shared::input;
use std::thread::Builder;

/// include/planner.h: 256 KiB.
const STATED: usize = 256 * 1024;

/// Every call once, accepted. The arrays of a call have one size whatever it is handed.
fn every_call(pool: &Pool) {
    let n = pool.size();
    let ([mut levels, mut layers, mut components], mut marks) = ([0; 3].map(|_| vec![0; n]), vec![0; n]);
    planner::check(&pool.starts, &pool.links).unwrap();
    planner::list_components(input(pool), &mut levels, &mut layers, &mut components).unwrap();
    planner::work(input(pool), &mut levels, &mut layers, &mut components).unwrap();
    planner::check_sheet(input(pool), &levels, &layers).unwrap();
    planner::followers(input(pool), &levels, &layers, 0, &mut marks).unwrap();
    planner::ceiling(input(pool), &levels, &layers, 0).unwrap();
    planner::collapse(input(pool), &levels, &layers, 0, &mut marks).unwrap();
    let terms: Vec<Term> = (0..256).map(|i| Term { vertex: 4 * i, first: 2 * i, end: 2 * i + 1 }).collect();
    assert_eq!(planner::first_day(&pool.starts, &pool.links, &terms, 0..600, 1, 2).unwrap().day, None);
    let (mut lent, mut record) = (pool.lent(0), Record::room(n, 3));
    let table = Table { starts: &mut lent.starts, links: &mut lent.links };
    let events = Events { kinds: &[ANCHOR, ADD_EDGE, DROP_EDGE], firsts: &[9; 3], seconds: &[7; 3] };
    planner::run(table, &pool.anchored, events, &mut record).unwrap();
    assert_eq!(record.status, [0; 3]);
    let houses: Vec<u16> = (0..n as u16).map(|v| v % 16).collect();
    assert_eq!(planner::share_rounds(input(pool), &houses, &[1; 16], &mut vec![0; 64320]).unwrap().length, 16 * (48 + n));
    planner::text_to_sheet(&pool.text(2), &mut vec![0; 64320]).unwrap();
}

/// A thread with less than a call takes would end the test's process.
#[test]
fn a_small_stack() {
    let ring = Pool::of_edges(1024, (0..1024).map(|v| (v, (v + 1) % 1024)), vec![0; 1024]);
    Builder::new().stack_size(STATED).spawn(move || every_call(&ring)).unwrap().join().unwrap();
}
