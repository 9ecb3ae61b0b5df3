//! Sessions against plain Rust that works every row afresh after each event.

use crate::measures::{plain, thousand, time, times, Line};
use planner::{Events, Record, Table};
use pools::{Pool, Random};
use reference::{quick, Event};
use std::collections::BTreeSet;
use std::hint::black_box;

/// Events as the three lists of a call.
#[derive(Default)]
pub struct List {
    kinds: Vec<u16>,
    firsts: Vec<u16>,
    seconds: Vec<u16>,
}

impl List {
    fn new(events: &[Event]) -> List {
        let column = |pick: fn(&Event) -> u16| events.iter().map(pick).collect();
        List { kinds: column(|event| event.kind), firsts: column(|event| event.first), seconds: column(|event| event.second) }
    }
}

/// A session on a table that is lent.
pub fn run(lent: &mut Pool, list: &List, record: &mut Record) {
    let (Pool { starts, links, anchored }, List { kinds, firsts, seconds }) = (lent, list);
    planner::run(Table { starts, links }, anchored, Events { kinds, firsts, seconds }, record).unwrap();
}

fn names(list: &[u16]) -> Vec<Event> {
    list.iter().copied().map(Event::anchor).collect()
}

/// Every row afresh: the sheet, and a working of all levels for each vertex not anchored. The net yields.
fn fresh_rows(pool: quick::Pool, set: &[bool], bare: &[u16]) -> Vec<i16> {
    black_box(quick::sheet(pool, set));
    quick::net_yields(pool, set, bare)
}

/// How many the search from each vertex reaches: compared, and not timed with the plain side.
pub fn fresh_reached(pool: quick::Pool, set: &[bool]) -> Vec<u16> {
    quick::reached_counts(pool, set, &quick::sheet(pool, set))
}

/// A session by bare levels once, and fresh rows at the start and after each name; the net yields at the end.
fn fresh_session(pool: &Pool, names: &[u16]) -> Vec<i16> {
    let (mut set, bare) = (vec![false; pool.size()], quick::bare_levels(plain(pool)));
    let mut yields = fresh_rows(plain(pool), &set, &bare);
    for &x in names {
        set[x as usize] = true;
        yields = fresh_rows(plain(pool), &set, &bare);
    }
    yields
}

/// The plain side serves this many names of a session, and works the rows after each 50th: all of them would take minutes.
const FEW: usize = 25;

/// Sessions that only anchor.
pub fn anchoring(seeds: &[u64]) -> Vec<Line> {
    let on = "session on 1,024 vertices, 5,000 edges";
    let mut lines = [
        Line::new(&format!("{on}: the first {FEW} of 1,000 names"), &format!("plain Rust: the same {FEW} names, every row afresh after each")),
        Line::new(&format!("{on}: one name, average over all 1,000"), "plain Rust: every row afresh after one name, average over each 50th of the 1,000 (the others not run)"),
    ];
    for &seed in seeds {
        let mut random = Random(seed * 104729);
        let pool = Pool::random(&mut random, 1024, 5000);
        let mut list: Vec<u16> = (0..1024).collect();
        random.shuffle(&mut list);
        list.truncate(1000);
        // anchoring leaves the table as it is
        let (mut lent, first, all) = (pool.lent(0), List::new(&names(&list[..FEW])), List::new(&names(&list)));
        let (mut record, mut whole, mut yields) = (Record::room(1024, FEW), Record::room(1024, 1000), vec![]);
        let few = times(3, 1, [&mut || run(&mut lent, &first, &mut record), &mut || yields = fresh_session(&pool, &list[..FEW])]);
        assert_eq!(record.yields, yields);
        let anchored: Vec<bool> = record.anchored.iter().map(|&byte| byte == 1).collect();
        assert_eq!(record.reached, fresh_reached(plain(&pool), &anchored));
        let all = time(&mut || run(&mut lent, &all, &mut whole));
        assert!(whole.status.iter().all(|&status| status == 0));
        let (mut set, mut sampled, bare) = (vec![false; 1024], vec![], quick::bare_levels(plain(&pool)));
        for (i, &x) in list.iter().enumerate() {
            set[x as usize] = true;
            if i % 50 == 49 {
                sampled.push(time(&mut || yields = fresh_rows(plain(&pool), &set, &bare)));
            }
        }
        assert_eq!(whole.yields, yields);
        assert_eq!(whole.reached, fresh_reached(plain(&pool), &set));
        lines[0].times.push((few[0], few[1]));
        lines[1].times.push((all / 1000.0, sampled.iter().sum::<f64>() / sampled.len() as f64));
    }
    lines.into()
}

/// How many events of a kind are measured; the plain side works the rows after each 10th.
const MANY: usize = 100;

/// Each drops a random edge of those that are there, or adds one that is not, whichever is drawn.
fn edge_events(pool: &Pool, random: &mut Random) -> Vec<Event> {
    let mut edges: BTreeSet<(usize, usize)> = pool.edges().into_iter().collect();
    let mut event = || loop {
        let (u, v) = (random.below(pool.size()), random.below(pool.size()));
        if random.one_in(2) {
            let edge = *edges.iter().nth(random.below(edges.len())).unwrap();
            edges.remove(&edge);
            return Event::drop_edge(edge.0 as u16, edge.1 as u16);
        }
        if u != v && edges.insert((u.min(v), u.max(v))) {
            return Event::add_edge(u as u16, v as u16);
        }
    };
    (0..MANY).map(|_| event()).collect()
}

/// The net yields and the reached counts at the end.
type Rows = (Vec<i16>, Vec<u16>);

/// What one event takes in a session of many, the session's start left out.
fn event_time(pool: &Pool, events: &[Event]) -> (f64, Rows) {
    let (lent, list, none) = (pool.lent(0), List::new(events), List::default());
    let (mut record, mut empty) = (Record::room(pool.size(), MANY), Record::room(pool.size(), 0));
    let [all, start] = times(3, 1, [&mut || run(&mut lent.clone(), &list, &mut record), &mut || run(&mut lent.clone(), &none, &mut empty)]);
    assert!(record.status.iter().all(|&status| status == 0));
    ((all - start) / MANY as f64, (record.yields, record.reached))
}

/// What plain Rust takes for one of the events on average: the table or the set changed, bare levels where an edge did, every row afresh.
fn plain_time(pool: &Pool, events: &[Event]) -> (f64, Rows) {
    let (mut set, mut table) = (vec![false; pool.size()], quick::Table::new(plain(pool)));
    let (mut bare, mut yields, mut sampled) = (quick::bare_levels(plain(pool)), vec![], vec![]);
    for (i, &Event { kind, first, second }) in events.iter().enumerate() {
        let is_sampled = i % 10 == 9;
        let taken = time(&mut || {
            match kind {
                0 => set[first as usize] = true,
                1 => table = table.with(first, second).unwrap(),
                _ => table = table.without(first, second).unwrap(),
            }
            if is_sampled && kind != 0 {
                bare = quick::bare_levels(table.pool());
            }
            if is_sampled {
                yields = fresh_rows(table.pool(), &set, &bare);
            }
        });
        sampled.extend(is_sampled.then_some(taken));
    }
    (sampled.iter().sum::<f64>() / sampled.len() as f64, (yields, fresh_reached(table.pool(), &set)))
}

/// One event on 1,000 vertices and 5,000 random edges: a vertex anchored, an edge added or dropped.
pub fn events(seeds: &[u64]) -> Vec<Line> {
    let plain = |what: &str| format!("plain Rust: {what} after it, average over each 10th of the {MANY}");
    let ours = |what: &str| format!("one event that {what}, average over {MANY}, the session's start left out");
    let mut lines = [
        Line::new(&ours("anchors a vertex"), &plain("every row afresh")),
        Line::new(&ours("adds or drops an edge, drawn at random"), &plain("bare levels and every row afresh")),
    ];
    for &seed in seeds {
        let (pool, mut random) = (thousand(seed), Random(seed * 32452843));
        let mut list: Vec<u16> = (0..1000).collect();
        random.shuffle(&mut list);
        for (line, events) in lines.iter_mut().zip([names(&list[..MANY]), edge_events(&pool, &mut random)]) {
            let ((ours, kept), (theirs, fresh)) = (event_time(&pool, &events), plain_time(&pool, &events));
            assert_eq!(kept, fresh);
            line.times.push((ours, theirs));
        }
    }
    lines.into()
}
