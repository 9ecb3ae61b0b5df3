//! Sessions: all that a call is lent and handed, what it leaves, and what is expected of that.

use super::{anchor_set, fresh_levels, held, plain, refusal, size, table_size, wrong_lengths};
use planner::{Events, Record, Refusal, Size, Table, LINK_PLACES};
use pools::Pool;
use reference::{quick, Event, Plain, Session};

/// Room for n vertices and m events, with contents that no answer gives by chance.
fn room(n: usize, m: usize) -> Record {
    Record {
        anchored: (0..n).map(|i| 100 + i as u8 % 100).collect(),
        levels: held(n, 1),
        layers: held(n, 2),
        components: held(n, 3),
        // from -21,136 up, and no net yield is so low but -32,768
        yields: held(n, 4).into_iter().map(|number| number as i16).collect(),
        reached: held(n, 5),
        stamps: held(n, 6),
        status: held(m, 7),
        lifted: held(m, 8),
        redone: held(m, 9),
    }
}

/// All that a call is lent and handed.
#[derive(Clone, PartialEq, Eq, Debug)]
pub struct Call {
    pub starts: Vec<u16>,
    pub links: Vec<u16>,
    pub given: Vec<u8>,
    pub kinds: Vec<u16>,
    pub firsts: Vec<u16>,
    pub seconds: Vec<u16>,
    pub record: Record,
}

impl Call {
    /// The pool's table with a 7 in every place past its links.
    pub fn new(pool: &Pool, events: &[Event]) -> Call {
        let Pool { starts, links, anchored: given } = pool.lent(7);
        let column = |pick: fn(&Event) -> u16| events.iter().map(pick).collect();
        let [kinds, firsts, seconds] = [column(|event| event.kind), column(|event| event.first), column(|event| event.second)];
        Call { starts, links, given, kinds, firsts, seconds, record: room(pool.size(), events.len()) }
    }

    pub fn make(&mut self) -> Result<Size, Refusal> {
        let Call { starts, links, given, kinds, firsts, seconds, record } = self;
        planner::run(Table { starts, links }, given, Events { kinds, firsts, seconds }, record)
    }

    /// What the naive tests of the call answer: the size of its table, or why it is refused.
    pub fn admitted(&self) -> Result<Size, Refusal> {
        let Call { starts, links, given, kinds, firsts, seconds, record: r } = self;
        let for_vertices =
            [r.anchored.len(), r.levels.len(), r.layers.len(), r.components.len(), r.yields.len(), r.reached.len(), r.stamps.len()];
        let for_events = [r.status.len(), r.lifted.len(), r.redone.len()];
        let call = reference::Call { starts, links, given, kinds, firsts, seconds, for_vertices, for_events };
        reference::admit_session(&call).map(|(graph, ..)| size(reference::size(&graph))).map_err(refusal)
    }

    /// A call that must be refused and leave alone all that it is lent.
    pub fn refused(mut self, number: u64, place: u64) {
        let before = self.clone();
        assert_eq!(self.make(), Err(Refusal { number, place }), "{:?} {:?}", self.starts, self.given);
        assert!(self == before, "refusal {number} wrote to what it is lent");
    }

    /// The same with each wrong record; how many there are.
    pub fn refused_lengths(mut self) -> usize {
        let (starts, links, records) = (self.starts.clone(), self.links.clone(), wrong_records(&self.record));
        for record in &records {
            self.record = record.clone();
            assert_eq!(self.make(), Err(Refusal { number: 12, place: 0 }), "{starts:?}");
            assert!(self.record == *record && self.starts == starts && self.links == links, "refusal 12 wrote to what it is lent");
        }
        records.len()
    }
}

/// The record with each of its ten slices in turn one too short and one too long.
pub fn wrong_records(record: &Record) -> Vec<Record> {
    let with = |change: &dyn Fn(&mut Record)| {
        let mut wrong = record.clone();
        change(&mut wrong);
        wrong
    };
    let vertices = wrong_lengths(record.levels.len()).flat_map(|length| {
        [
            with(&|record| record.anchored.resize(length, 7)),
            with(&|record| record.levels.resize(length, 7)),
            with(&|record| record.layers.resize(length, 7)),
            with(&|record| record.components.resize(length, 7)),
            with(&|record| record.yields.resize(length, 7)),
            with(&|record| record.reached.resize(length, 7)),
            with(&|record| record.stamps.resize(length, 7)),
        ]
    });
    let events = wrong_lengths(record.status.len()).flat_map(|length| {
        [
            with(&|record| record.status.resize(length, 7)),
            with(&|record| record.lifted.resize(length, 7)),
            with(&|record| record.redone.resize(length, 7)),
        ]
    });
    vertices.chain(events).collect()
}

/// What an accepted call answers, the size of its table before the events; and what it leaves: the table without the places past its
/// links, and the record.
#[derive(Clone, PartialEq, Eq, Debug)]
pub struct Left {
    pub size: Size,
    pub starts: Vec<u16>,
    pub links: Vec<u16>,
    pub record: Record,
}

impl From<reference::Record> for Left {
    fn from(r: reference::Record) -> Left {
        let record = Record {
            anchored: r.anchored,
            levels: r.sheet.level,
            layers: r.sheet.layer,
            components: r.sheet.component,
            yields: r.yields,
            reached: r.reached,
            stamps: r.stamps,
            status: r.status,
            lifted: r.followers,
            redone: r.recomputed,
        };
        Left { size: size(r.size), starts: r.starts, links: r.links, record }
    }
}

impl Left {
    /// Whether the events have changed the number of edges, and the greatest degree.
    pub fn resized(&self) -> [bool; 2] {
        let end = table_size(&self.pool()).unwrap();
        [self.size.edges != end.edges, self.size.max_degree != end.max_degree]
    }

    /// The table with who is anchored at the end.
    pub fn pool(&self) -> Pool {
        Pool { starts: self.starts.clone(), links: self.links.clone(), anchored: self.record.anchored.clone() }
    }

    /// The table's bare levels, those with nobody anchored, as the planner works them out.
    pub fn bare_levels(&self) -> Vec<u16> {
        fresh_levels(&Pool { anchored: vec![0; self.record.anchored.len()], ..self.pool() })
    }
}

/// Events that anchor, with second numbers that do not matter.
pub fn names(list: &[u16]) -> Vec<Event> {
    let second = |i: usize, first: u16| [65535, first, 0, first ^ 1][(i + first as usize) % 4];
    list.iter().enumerate().map(|(i, &first)| Event { kind: 0, first, second: second(i, first) }).collect()
}

/// Slices are compared many times faster than numbers one by one.
static ZEROS: [u16; LINK_PLACES] = [0; LINK_PLACES];

/// A session that must be accepted, with the size that the check of the table answers, and leave 0 in every place past its links.
pub fn accepted(pool: &Pool, events: &[Event]) -> Left {
    let mut call = Call::new(pool, events);
    let size = call.make().unwrap_or_else(|e| panic!("{e}: {pool:?} {events:?}"));
    assert_eq!(planner::check(&pool.starts, &pool.links), Ok(size), "{pool:?} {events:?}");
    let Call { starts, mut links, record, .. } = call;
    let last = *starts.last().unwrap() as usize;
    assert!(links[last..] == ZEROS[last..], "{pool:?} {events:?}");
    links.truncate(last);
    Left { size, starts, links, record }
}

/// A session against the naive one, which has taken the same events.
pub fn compare_with(pool: &Pool, events: &[Event], naive: &Plain, session: &Session) -> Left {
    let (left, expected) = (accepted(pool, events), Left::from(naive.record(session)));
    assert_eq!(left, expected, "{pool:?} {events:?}");
    left
}

/// The naive session of a sound pool before any event.
pub fn started(pool: &Pool, naive: &mut Plain) -> Session {
    let (graph, set) = reference::admit(&pool.starts, &pool.links, &pool.anchored).unwrap();
    naive.start(&graph, &set)
}

/// A session against the naive one, where others have been worked out.
pub fn compare_in(pool: &Pool, events: &[Event], naive: &mut Plain) -> Left {
    let mut session = started(pool, naive);
    for &event in events {
        session = naive.take(&session, event);
    }
    compare_with(pool, events, naive, &session)
}

/// A session against the naive one.
pub fn compare(pool: &Pool, events: &[Event]) -> Left {
    compare_in(pool, events, &mut Plain::default())
}

/// A session against the quick one.
pub fn compare_quick(pool: &Pool, events: &[Event]) -> Left {
    let left = accepted(pool, events);
    assert!(left == Left::from(quick::session(plain(pool), &anchor_set(pool), events)));
    left
}

/// A pool that may be damaged; the refusal's number.
pub fn compare_damaged(pool: &Pool, events: &[Event]) -> Option<u64> {
    let call = Call::new(pool, events);
    let Err(Refusal { number, place }) = call.admitted() else {
        // what stands past the last start is no link
        let links = call.links[..call.starts[pool.size()] as usize].to_vec();
        compare(&Pool { links, ..pool.clone() }, events);
        return None;
    };
    call.refused(number, place);
    Some(number)
}

/// What a vertex not anchored has climbed.
fn climb(record: &Record, bare: &[u16], v: usize) -> i64 {
    record.levels[v] as i64 - bare[v] as i64
}

/// The vertices not anchored.
pub fn free(record: &Record) -> impl Iterator<Item = usize> + '_ {
    (0..record.anchored.len()).filter(|&v| record.anchored[v] == 0)
}

/// The sum of the climbs of all vertices not anchored.
pub fn climbed(record: &Record, bare: &[u16]) -> i64 {
    free(record).map(|v| climb(record, bare, v)).sum()
}

/// Counts the vertices not anchored from which the search reaches nobody, followers alone, and others too.
pub fn count_widths(record: &Record, bare: &[u16], widths: &mut [usize; 3]) {
    for v in free(record) {
        let (reached, followers) = (record.reached[v] as i64, record.yields[v] as i64 + climb(record, bare, v));
        assert!(0 <= followers && followers <= reached, "{record:?} {v}");
        widths[(reached > 0) as usize + (reached > followers) as usize] += 1;
    }
}
