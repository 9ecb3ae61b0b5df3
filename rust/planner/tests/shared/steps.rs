//! A session from event to event, by the planner's own answers alone: each record is the fresh one for the table as it stands, and what
//! lies between two of them is what documents 01 and 02 say of the event.

use super::sessions::{accepted, climbed, count_widths, free, Left};
use super::{input, table_size};
use planner::Record;
use pools::Pool;
use reference::Event;
use std::collections::BTreeMap;

/// What was met on the way.
#[derive(Default, Debug)]
pub struct Met {
    /// Events by kind, those above 2 as 3, and status.
    pub statuses: BTreeMap<(u16, u16), usize>,
    /// Vertices anchored, by the sign of their net yield.
    pub signs: [usize; 3],
    /// Levels of vertices not anchored that an edge, added or dropped, has lowered, left and raised; and so their bare levels.
    pub levels: [usize; 3],
    pub bare: [usize; 3],
    /// Calls whose events have changed the number of edges, and those that have changed the greatest degree.
    pub resized: [usize; 2],
    /// Vertices not anchored, in all records, from which the search reaches nobody, followers alone, and others too.
    pub widths: [usize; 3],
    /// Reached counts of vertices not anchored that an event has lowered, left and raised; and of those changed how many stand beside a net
    /// yield that stayed.
    pub reached: [usize; 3],
    pub reached_alone: usize,
}

/// The record, stamps apart, is the fresh one of the other operations, which accept the table. The bare levels.
fn is_fresh(left: &Left) -> Vec<u16> {
    let (pool, record, bare) = (left.pool(), &left.record, left.bare_levels());
    let size = table_size(&pool);
    assert_eq!(planner::check(&pool.starts, &pool.links), size);
    let ([mut levels, mut layers, mut components], mut marks) = ([0; 3].map(|_| vec![0; pool.size()]), vec![0; pool.size()]);
    assert_eq!(planner::work(input(&pool), &mut levels, &mut layers, &mut components), size);
    assert_eq!((&levels, &layers, &components), (&record.levels, &record.layers, &record.components), "{pool:?}");
    for x in 0..pool.size() {
        let row = match record.anchored[x] {
            1 => (-32768, 65535),
            _ => {
                let found = planner::followers(input(&pool), &levels, &layers, x, &mut marks).unwrap();
                assert_eq!(Ok(found.size), size);
                (found.lifted as i16 - (levels[x] as i16 - bare[x] as i16), found.reached as u16)
            }
        };
        assert_eq!((record.yields[x], record.reached[x]), row, "{pool:?} {x}");
    }
    bare
}

/// Whom x lifts in a session's record, by the search.
fn followers(left: &Left, x: usize) -> Vec<bool> {
    let (pool, mut marks) = (left.pool(), vec![0; left.record.levels.len()]);
    planner::followers(input(&pool), &left.record.levels, &left.record.layers, x, &mut marks).unwrap();
    marks.into_iter().map(|mark| mark == 2).collect()
}

/// The numbers of the record's first events, and of the one behind them.
fn numbers(record: &Record, events: usize) -> [&[u16]; 3] {
    [&record.status[..events], &record.lifted[..events], &record.redone[..events]]
}

impl Met {
    /// How levels moved, by one at the most; those of vertices not anchored are counted.
    fn moves(counts: &mut [usize; 3], anchored: &[u8], before: &[u16], after: &[u16]) {
        for (v, &byte) in anchored.iter().enumerate() {
            let moved = after[v] as i32 - before[v] as i32;
            assert!((-1..=1).contains(&moved), "from {} to {}", before[v], after[v]);
            counts[(moved + 1) as usize] += (byte == 0) as usize;
        }
    }

    /// Whoever is not stamped by the event at this position keeps yield, reached count and stamp; all others, a newly anchored one apart,
    /// are counted.
    fn stamps(before: &Record, after: &Record, named: Option<usize>, position: usize) {
        let is_stamped = |v: usize| after.stamps[v] as usize == position;
        let row = |record: &Record, v: usize| (record.yields[v], record.reached[v], record.stamps[v]);
        let kept = (0..after.stamps.len()).filter(|&v| !is_stamped(v));
        for v in kept {
            assert_eq!(row(before, v), row(after, v));
        }
        let redone = (0..after.stamps.len()).filter(|&v| is_stamped(v) && Some(v) != named);
        assert_eq!(redone.clone().count(), after.redone[position - 1] as usize);
        assert!(redone.into_iter().all(|v| after.anchored[v] == 0));
    }

    /// How the reached counts of vertices not anchored moved.
    fn reached_moves(&mut self, before: &Record, after: &Record) {
        for v in free(after) {
            let moved = after.reached[v].cmp(&before.reached[v]);
            self.reached[(moved as i8 + 1) as usize] += 1;
            self.reached_alone += (moved.is_ne() && after.yields[v] == before.yields[v]) as usize;
        }
    }

    fn anchored(&mut self, before: &Left, after: &Left, x: usize) {
        let (a, b) = (&before.record, &after.record);
        assert_eq!((&before.starts, &before.links), (&after.starts, &after.links));
        assert!((0..a.anchored.len()).all(|v| b.anchored[v] == if v == x { 1 } else { a.anchored[v] }));
        let up = followers(before, x);
        let level = |v: usize| if v == x { 65535 } else { a.levels[v] + up[v] as u16 };
        assert!((0..up.len()).all(|v| b.levels[v] == level(v)));
        assert_eq!(*b.lifted.last().unwrap() as usize, up.iter().filter(|&&up| up).count());
        self.signs[(a.yields[x].signum() + 1) as usize] += 1;
    }

    fn joined_or_parted(&mut self, [before, after]: [&Left; 2], bare: [&[u16]; 2], event: Event) {
        let edge = (event.first.min(event.second) as usize, event.first.max(event.second) as usize);
        let (mut edges, has) = (before.pool().edges(), |left: &Left| left.pool().edges().contains(&edge));
        assert_eq!([before, after].map(has), [event.kind == 2, event.kind == 1]);
        edges.retain(|&known| known != edge);
        edges.extend((event.kind == 1).then_some(edge));
        edges.sort();
        assert_eq!(after.pool().edges(), edges);
        assert_eq!((&before.record.anchored, after.record.lifted.last()), (&after.record.anchored, Some(&0)));
        Met::moves(&mut self.levels, &after.record.anchored, &before.record.levels, &after.record.levels);
        Met::moves(&mut self.bare, &after.record.anchored, bare[0], bare[1]);
    }

    /// The whole list, with a call for each number of events: what each leaves.
    pub fn along(&mut self, pool: &Pool, events: &[Event]) -> Vec<Left> {
        let upto: Vec<Left> = (0..=events.len()).map(|i| accepted(pool, &events[..i])).collect();
        let bare: Vec<Vec<u16>> = upto.iter().map(is_fresh).collect();
        for (left, bare) in upto.iter().zip(&bare) {
            assert_eq!(Ok(left.size), table_size(pool));
            count_widths(&left.record, bare, &mut self.widths);
            self.resized.iter_mut().zip(left.resized()).for_each(|(count, resized)| *count += resized as usize);
        }
        // what is climbed in all since the last change of an edge
        let mut sum = climbed(&upto[0].record, &bare[0]);
        for (i, &event) in events.iter().enumerate() {
            let (before, after) = (&upto[i], &upto[i + 1]);
            let status = after.record.status[i];
            *self.statuses.entry((event.kind.min(3), status)).or_default() += 1;
            assert_eq!(numbers(&before.record, i), numbers(&after.record, i));
            let named = (event.kind == 0).then_some(event.first as usize);
            if status != 0 {
                let Record { status, lifted, redone, .. } = after.record.clone();
                assert_eq!((lifted[i], redone[i]), (0, 0));
                let record = Record { status, lifted, redone, ..before.record.clone() };
                assert!(*after == Left { record, ..before.clone() }, "an event of status {} changed something", after.record.status[i]);
                continue;
            }
            Met::stamps(&before.record, &after.record, named, i + 1);
            self.reached_moves(&before.record, &after.record);
            match named {
                Some(x) => {
                    self.anchored(before, after, x);
                    sum += before.record.yields[x] as i64;
                }
                None => {
                    self.joined_or_parted([before, after], [&bare[i], &bare[i + 1]], event);
                    sum = climbed(&after.record, &bare[i + 1]);
                }
            }
            assert_eq!(climbed(&after.record, &bare[i + 1]), sum, "{pool:?} {:?}", &events[..=i]);
        }
        upto
    }
}
