//! Sessions that add and drop edges between anchoring, against the naive working: every event on all small pools and short lists of them,
//! random lists after every event, large pools against the quick working, full tables, the limits; and from event to event by the
//! planner's own answers alone. PLANNER_LONG=1 runs more.

mod shared;

use planner::{Record, Size};
use pools::{Pool, Random};
use reference::{Event, Plain, Session};
use shared::sessions::{accepted, compare, compare_quick, compare_with, started, Call, Left};
use shared::steps::Met;
use shared::{small_pools, table_size};
use std::collections::BTreeMap;

/// The kinds of events, those above 2 as 3, with the statuses that they get on tables that are not full.
const STATUSES: [(u16, u16); 12] =
    [(0, 0), (0, 15), (0, 16), (1, 0), (1, 6), (1, 15), (1, 22), (2, 0), (2, 6), (2, 15), (2, 22), (3, 10)];

/// Lists on pools of one size, with the naive working of all of them; of the sessions those that leave another number of edges and the same
/// greatest degree, another greatest degree and as many edges, and another of both.
#[derive(Default)]
struct Compared {
    naive: Plain,
    sessions: [usize; 3],
    statuses: BTreeMap<(u16, u16), usize>,
    resized: [usize; 3],
}

impl Compared {
    fn list(&mut self, pool: &Pool, events: &[Event], session: &Session) {
        let left = compare_with(pool, events, &self.naive, session);
        self.sessions[events.len()] += 1;
        match left.resized() {
            [false, false] => {}
            [true, false] => self.resized[0] += 1,
            [false, true] => self.resized[1] += 1,
            [true, true] => self.resized[2] += 1,
        }
        for (event, &status) in events.iter().zip(&left.record.status) {
            *self.statuses.entry((event.kind.min(3), status)).or_default() += 1;
        }
    }

    /// No event, each of `one` alone, and each two of `two`, one after the other.
    fn lists(&mut self, pool: &Pool, one: &[Event], two: &[Event]) {
        let session = started(pool, &mut self.naive);
        self.list(pool, &[], &session);
        for &event in one {
            let after = self.naive.take(&session, event);
            self.list(pool, &[event], &after);
        }
        for &event in two {
            let after = self.naive.take(&session, event);
            for &then in two {
                let both = self.naive.take(&after, then);
                self.list(pool, &[event, then], &both);
            }
        }
    }
}

/// The events that no table refuses for what they are, edges by their lower vertex first.
fn proper_events(pool: &Pool) -> Vec<Event> {
    let n = pool.size() as u16;
    let is_proper = |&Event { kind, first, second }: &Event| first < n && (kind == 0 || kind < 3 && first < second && second < n);
    pool.all_events().into_iter().filter(is_proper).collect()
}

/// Of the sessions of `all_small_pools`, by the number of vertices, those that leave a table of another size: in its edges alone, in its
/// greatest degree alone, in both; and in a long run with 4 vertices. The figures were counted apart from the tests.
const RESIZED: [[usize; 3]; 5] = [[0; 3], [0; 3], [0, 0, 656], [6_048, 0, 18_912], [69_888, 5_376, 80_640]];
const LONG_RESIZED: [usize; 3] = [556_032, 21_504, 599_040];

/// Every list of up to two events on all pools of up to 3 vertices; on those of 4 every list of one, and of two proper ones.
#[test]
fn all_small_pools() {
    let mut compared = [0; 5].map(|_| Compared::default());
    for pool in small_pools(4) {
        let all = pool.all_events();
        let two = if pool.size() < 4 || pools::long() { all.clone() } else { proper_events(&pool) };
        compared[pool.size()].lists(&pool, &all, &two);
    }
    for (n, Compared { sessions, statuses, resized, .. }) in compared.iter().enumerate() {
        println!("pools of {n} vertices: {sessions:?} sessions of 0, 1 and 2 events, by kind and status {statuses:?}");
        println!("{resized:?} of them change the number of edges alone, the greatest degree alone, and both");
        assert_eq!(*resized, if n == 4 && pools::long() { LONG_RESIZED } else { RESIZED[n] });
        // (n + 1) * (2n + 3) + 1 events; with 4 vertices 16 are proper, 4 that anchor and 12 for 6 edges
        let (pools, one) = ([1, 2, 8, 64, 1024][n], [4, 11, 22, 37, 56][n]);
        let two = if n < 4 || pools::long() { one } else { 16 };
        assert_eq!(*sessions, [pools, pools * one, pools * two * two]);
    }
    assert!(compared[3].statuses.keys().copied().eq(STATUSES) && compared[4].statuses.keys().copied().eq(STATUSES));
}

/// The event that adds or drops an edge, whichever the pool allows.
fn turned(pool: &Pool, u: usize, v: usize) -> Event {
    let is_there = pool.list(u).contains(&(v as u16));
    Event { kind: 1 + is_there as u16, first: u as u16, second: v as u16 }
}

/// Each edge of all pools of 5 vertices added or dropped, of every fourth of them unless in a long run. With fewer vertices no row is
/// stale for its being the edge's end alone.
#[test]
fn edges_of_five() {
    let mut compared = Compared::default();
    let share = if pools::long() { 1 } else { 4 };
    for (i, pool) in Pool::all(5).enumerate() {
        let edges = (0..5).flat_map(|v| (0..v).map(move |u| (u, v))).enumerate();
        let events: Vec<Event> = edges.filter(|(j, _)| (i / 32 + i + j) % share == 0).map(|(_, (u, v))| turned(&pool, u, v)).collect();
        compared.lists(&pool, &events, &[]);
    }
    println!("pools of 5 vertices: {:?} sessions of no event and one, {:?}", compared.sessions, compared.statuses);
    let half = 32_768 * 10 / share / 2;
    assert_eq!((compared.sessions, compared.statuses), ([32_768, 2 * half, 0], [((1, 0), half), ((2, 0), half)].into()));
}

/// Of each edge of all pools of up to 4 vertices, added or dropped: how many vertices not anchored it lowers, leaves and raises, and of how
/// many of them it so moves the bare level. The figures were counted apart from the tests.
const MOVES: [[usize; 3]; 2] = [[2_851, 6_882, 2_851], [2_776, 7_032, 2_776]];

/// Of the same how many change the number of edges, which is each, and how many the greatest degree, counted so too.
const TURNED: [usize; 2] = [6_344, 3_224];

/// And so: from how many vertices not anchored, before it or after it, the search reaches nobody, followers alone, and others too; of how
/// many the reached count is lowered, left and raised, and of how many of those changed the net yield stays.
const WIDTHS: [usize; 3] = [19_912, 3_060, 2_196];
const REACHED_MOVES: ([usize; 3], usize) = ([1_572, 9_440, 1_572], 1_236);

/// Each of them by the planner's own answers.
#[test]
fn moves() {
    let mut met = Met::default();
    for pool in small_pools(4) {
        for (u, v) in (0..pool.size()).flat_map(|v| (0..v).map(move |u| (u, v))) {
            met.along(&pool, &[turned(&pool, u, v)]);
        }
    }
    println!("each edge of all pools of up to 4 vertices added or dropped: {met:?}");
    // 1, 3 and 6 edges in 8, 64 and 1,024 pools, half of them there
    assert_eq!(met.statuses, [((1, 0), 3172), ((2, 0), 3172)].into());
    assert_eq!(([met.levels, met.bare], met.resized), (MOVES, TURNED));
    assert_eq!((met.widths, (met.reached, met.reached_alone)), (WIDTHS, REACHED_MOVES));
}

/// A list, after every event, by the planner's own answers and against the naive working.
fn compare_upto(pool: &Pool, events: &[Event], met: &mut Met) -> Vec<Left> {
    let upto = met.along(pool, events);
    let mut naive = Plain::default();
    let mut session = started(pool, &mut naive);
    for (i, left) in upto.iter().enumerate() {
        assert_eq!(*left, Left::from(naive.record(&session)), "{pool:?} {:?}", &events[..i]);
        if let Some(&event) = events.get(i) {
            session = naive.take(&session, event);
        }
    }
    upto
}

/// The list in two calls, the second on what the first leaves, ends like the whole list, but that positions are counted anew, and the size
/// is that of what the first leaves.
fn compare_halves(pool: &Pool, events: &[Event], whole: &Left) {
    let (one, two) = events.split_at(events.len() / 2);
    let half = accepted(pool, one).pool();
    let mut end = accepted(&half, two);
    let behind = |numbers: &[u16]| numbers[one.len()..].to_vec();
    let [status, lifted, redone] = [&whole.record.status, &whole.record.lifted, &whole.record.redone].map(|numbers| behind(numbers));
    end.record.stamps.clone_from(&whole.record.stamps);
    let record = Record { status, lifted, redone, ..whole.record.clone() };
    assert_eq!(end, Left { size: table_size(&half).unwrap(), record, ..whole.clone() });
}

/// Random lists of 40 events.
#[test]
fn random_lists() {
    let (mut random, mut met) = (Random(1732050807), Met::default());
    let (small, large) = if pools::long() { (4000, 400) } else { (400, 40) };
    for i in 0..small + large {
        let pool = Pool::random_small(&mut random, if i < small { 16 } else { 40 });
        let events = pool.random_events(&mut random, 40);
        let upto = compare_upto(&pool, &events, &mut met);
        compare_halves(&pool, &events, &upto[40]);
    }
    println!("{small} lists of 40 events on random pools to 16 vertices, {large} to 40, after every event: {met:?}");
    assert!(met.statuses.keys().copied().eq(STATUSES) && met.statuses.values().all(|&events| events > 50));
    let counts = [&met.signs[..], &met.levels, &met.bare, &met.resized, &met.widths, &met.reached, &[met.reached_alone]].concat();
    assert!(counts.iter().all(|&count| count > 50));
}

/// Pools of 1,024 vertices against the quick working, and two of them from event to event.
#[test]
fn large_pools() {
    let (mut random, mut met, mut served) = (Random(2236067977), Met::default(), 0);
    let (count, most) = if pools::long() { (40, 400) } else { (8, 60) };
    for i in 0..count + 2 {
        let mut pool = Pool::random(&mut random, 1024, [900, 2000, 5000, 8180][i % 4]);
        for _ in 0..random.below(40) {
            pool.anchored[random.below(1024)] = 1;
        }
        let length = if i < count { most } else { 4 };
        let events = pool.random_events(&mut random, length);
        if i < count {
            let left = compare_quick(&pool, &events);
            served += left.record.status.iter().filter(|&&status| status == 0).count();
        } else {
            met.along(&pool, &events);
        }
    }
    println!("{count} lists of {most} events on pools of 1,024 vertices, {served} accepted; 2 from event to event: {met:?}");
    assert!(served > count * most / 2);
}

/// Two parts of 64 and 128 vertices with every edge between them: 16,384 links.
fn full() -> Pool {
    Pool::of_edges(192, (0..64).flat_map(|u| (64..192).map(move |v| (u, v))), vec![0; 192])
}

/// Events by their kinds and numbers.
fn events_of(list: &[[u16; 3]]) -> Vec<Event> {
    list.iter().map(|&[kind, first, second]| Event { kind, first, second }).collect()
}

/// Events with their statuses, compared after every event with the quick working.
fn compare_statuses(pool: &Pool, told: &[([u16; 3], u16)]) {
    let (list, statuses): (Vec<[u16; 3]>, Vec<u16>) = told.iter().copied().unzip();
    for i in 0..=list.len() {
        let left = compare_quick(pool, &events_of(&list[..i]));
        assert_eq!(left.record.status, statuses[..i]);
    }
}

#[test]
fn full_tables() {
    // 22 before 23, and the tests before them; two places when an edge is dropped
    compare_statuses(&full(), &[
        ([1, 0, 1], 23), ([1, 0, 64], 22), ([1, 191, 63], 22), ([2, 0, 1], 22), ([3, 0, 1], 10), ([1, 0, 0], 6), ([1, 192, 192], 6),
        ([1, 0, 192], 15), ([1, 192, 0], 15), ([0, 7, 7], 0), ([1, 0, 1], 23), ([2, 64, 0], 0), ([1, 1, 0], 0), ([1, 0, 64], 23),
        ([2, 0, 1], 0), ([1, 64, 0], 0), ([1, 64, 0], 22), ([1, 1, 0], 23),
    ]);
    // places for one edge, all vertices anchored, and for two
    let [one, two] = [1, 2].map(|less| Pool::of_edges(192, full().edges().split_off(less), vec![2 - less as u8; 192]));
    assert_eq!([one.links.len(), two.links.len()], [16382, 16380]);
    compare_statuses(&one, &[([1, 0, 1], 0), ([1, 1, 2], 23), ([1, 0, 64], 23), ([2, 1, 0], 0), ([1, 64, 0], 0), ([1, 1, 0], 23)]);
    compare_statuses(&two, &[
        ([1, 64, 65], 0), ([1, 0, 64], 0), ([1, 0, 65], 23), ([1, 66, 67], 23), ([2, 64, 65], 0), ([1, 66, 67], 0), ([1, 64, 65], 23),
    ]);
    // edges drawn at random until there is no place, on 1,024 vertices
    let mut random = Random(2645751311);
    let pool = Pool::random(&mut random, 1024, 8180);
    let events: Vec<Event> = (0..16).map(|_| Event::add_edge(random.below(512) as u16, 512 + random.below(512) as u16)).collect();
    let left = compare_quick(&pool, &events);
    assert_eq!((left.links.len(), left.record.status.iter().filter(|&&status| status == 0).count()), (16384, 12));
    assert_eq!(left.record.status[15], 23);
}

/// A session told by hand: edges, anchored bytes and events; of each event status, lifted and redone; stamps, net yields and reached counts
/// at the end.
type Told = (
    &'static [(usize, usize)], &'static [u8], &'static [[u16; 3]],
    &'static [[u16; 3]], &'static [u16], &'static [i16], &'static [u16],
);

#[test]
fn small_examples() {
    const NO: i16 = -32768;
    const A: u16 = 65535;
    const CHAIN: &[(usize, usize)] = &[(0, 1), (1, 2), (2, 3)];
    const RING: &[(usize, usize)] = &[(0, 2), (0, 3), (1, 2), (1, 3)];
    const PAIRS: &[(usize, usize)] = &[(0, 1), (0, 2)];
    let cases: [Told; 16] = [
        // the ring stays one component of level 2 and gets an edge inside: 2 and 3 are redone because they look into it
        (RING, &[0; 4], &[[1, 0, 1]], &[[0, 0, 4]], &[1; 4], &[0; 4], &[0, 0, 2, 2]),
        // so is 3, which would now lift 0 and 1
        (RING, &[0, 0, 1, 0], &[[1, 0, 1]], &[[0, 0, 3]], &[1, 1, 0, 1], &[0, 0, NO, 2], &[0, 0, A, 2]),
        // 1 looks into nothing that changed and keeps both its levels: it is redone because the edge is its own, and would now lift 0
        (&[(0, 3), (0, 4), (1, 2)], &[0, 0, 0, 1, 1], &[[1, 0, 1]], &[[0, 0, 3]], &[1, 1, 1, 0, 0], &[-1, 1, 1, NO, NO], &[0, 1, 1, A, A]),
        // two anchors are joined and parted: of 0 only the bare level changes
        (PAIRS, &[0, 1, 1], &[[1, 1, 2]], &[[0, 0, 1]], &[1, 0, 0], &[0, NO, NO], &[0, A, A]),
        (PAIRS, &[0, 1, 1], &[[1, 1, 2], [2, 2, 1]], &[[0, 0, 1], [0, 0, 1]], &[2, 0, 0], &[-1, NO, NO], &[0, A, A]),
        // 0 and 1 climb: 0 is redone because its level changed
        (PAIRS, &[0, 0, 1, 1], &[[1, 1, 3]], &[[0, 0, 2]], &[1, 1, 0, 0], &[-1, -1, NO, NO], &[0, 0, A, A]),
        // 2 has looked into a component that is gone, and no longer lifts 0
        (PAIRS, &[0, 1, 0], &[[2, 0, 1]], &[[0, 0, 2]], &[1, 0, 1], &[0, NO, 0], &[0, A, 0]),
        // 1 looks into a component that is new, and would lift 0
        (&[(0, 1)], &[0, 0, 1], &[[1, 0, 2]], &[[0, 0, 2]], &[1, 1, 0], &[0, 1, NO], &[0, 1, A]),
        // nobody is redone
        (&[], &[1, 1], &[[1, 0, 1], [2, 0, 1]], &[[0, 0, 0], [0, 0, 0]], &[0, 0], &[NO, NO], &[A, A]),
        // an edge to an anchor: of the two only the other one's row is redone
        (&[], &[1, 0], &[[1, 0, 1]], &[[0, 0, 1]], &[0, 1], &[NO, 0], &[A, 0]),
        // the chain becomes a ring, all climb, and a chain again, with other ends; a pair event lifts nobody
        (CHAIN, &[0; 4], &[[1, 0, 3], [2, 1, 2]], &[[0, 0, 4], [0, 0, 4]], &[2; 4], &[0; 4], &[0, 1, 1, 0]),
        // the chain of five gets longer: nobody lifts anybody, before or after; from 3, which keeps both its levels, 2 is reached no more
        (
            &[(0, 1), (1, 2), (2, 3), (3, 4)], &[0; 6], &[[1, 4, 5]], &[[0, 0, 5]],
            &[1, 1, 0, 1, 1, 1], &[0; 6], &[2, 1, 0, 0, 1, 2],
        ),
        // 0, 1 and 2 keep their rows
        (&[(0, 1), (1, 2), (3, 4), (4, 5)], &[0; 6], &[[2, 4, 5]], &[[0, 0, 3]], &[0, 0, 0, 1, 1, 1], &[0; 6], &[1, 0, 1, 0, 0, 0]),
        // each status that a table with places left has
        (
            CHAIN, &[1, 0, 0, 0],
            &[[3, 9, 9], [1, 9, 9], [1, 0, 4], [2, 4, 0], [0, 4, 1], [0, 0, 0], [1, 2, 1], [2, 0, 2], [0, 3, 3], [0, 3, 9]],
            &[[10, 0, 0], [6, 0, 0], [15, 0, 0], [15, 0, 0], [15, 0, 0], [16, 0, 0], [22, 0, 0], [22, 0, 0], [0, 2, 2], [16, 0, 0]],
            &[0, 9, 9, 9], &[NO, -1, -1, NO], &[A, 0, 0, A],
        ),
        // the same edge is added and dropped from both its ends
        (
            &[], &[0, 0], &[[1, 0, 1], [1, 1, 0], [2, 1, 0], [2, 0, 1]], &[[0, 0, 2], [22, 0, 0], [0, 0, 2], [22, 0, 0]],
            &[3, 3], &[0, 0], &[0, 0],
        ),
        // anchored vertices have edges too: 0 and 2 are joined when both are anchored
        (
            CHAIN, &[1, 0, 0, 0], &[[0, 2, 0], [1, 2, 0], [0, 1, 1]], &[[0, 1, 2], [0, 0, 1], [0, 0, 0]],
            &[0, 3, 1, 1], &[NO, NO, NO, 0], &[A, A, A, 0],
        ),
    ];
    for (edges, anchored, events, rows, stamps, yields, reached) in cases {
        let pool = Pool::of_edges(anchored.len(), edges.iter().copied(), anchored.to_vec());
        let events = events_of(events);
        let record = compare(&pool, &events).record;
        let columns = record.status.iter().zip(&record.lifted).zip(&record.redone);
        assert_eq!(columns.map(|((&status, &lifted), &redone)| [status, lifted, redone]).collect::<Vec<_>>(), rows, "{pool:?} {events:?}");
        assert_eq!((&record.stamps[..], &record.yields[..], &record.reached[..]), (stamps, yields, reached), "{pool:?} {events:?}");
    }
}

/// Whatever the places past the links hold, they do not count in the size, and an accepted call leaves 0 there, with no event, with none
/// accepted and with some; a refused one leaves them alone.
#[test]
fn places_past_the_links() {
    let chain = Pool::of_edges(4, [(0, 1), (1, 2), (2, 3)], vec![0; 4]);
    let [none, refused, dropped] = [vec![], vec![Event::anchor(9)], vec![Event::drop_edge(0, 1), Event::drop_edge(2, 3)]];
    for rest in [1, 7, 65535] {
        for (pool, events, used, (edges, max_degree)) in [
            (&chain, &none, 6, (3, 2)),
            (&chain, &refused, 6, (3, 2)),
            (&chain, &dropped, 2, (3, 2)),
            (&Pool::of_edges(0, [], vec![]), &none, 0, (0, 0)),
            (&Pool::of_edges(0, [], vec![]), &refused, 0, (0, 0)),
            (&full(), &none, 16384, (8192, 128)),
        ] {
            let mut call = Call::new(pool, events);
            call.links[pool.links.len()..].fill(rest);
            let mut wrong = call.clone();
            assert_eq!(call.make(), Ok(Size { edges, max_degree }));
            assert_eq!((call.links.len(), *call.starts.last().unwrap()), (16384, used as u16));
            assert!(call.links[used..].iter().all(|&place| place == 0));
            wrong.given.push(0);
            wrong.refused(9, 0);
        }
    }
}

#[test]
fn limits() {
    let empty = Pool::of_edges(0, [], vec![]);
    let events = events_of(&[[0, 0, 0], [1, 0, 1], [2, 1, 0], [1, 0, 0], [2, 65535, 65535], [3, 0, 0]]);
    let record = compare(&empty, &events).record;
    assert_eq!((&record.status[..], &record.reached[..]), (&[15, 15, 15, 6, 6, 10][..], &[][..]));
    // a chain of 1,024 vertices becomes a ring, all climb, and falls again
    let chain = Pool::of_edges(1024, (0..1023).map(|v| (v, v + 1)), vec![0; 1024]);
    let [ring, parted] = [Event::add_edge(1023, 0), Event::drop_edge(511, 512)];
    assert_eq!(compare_quick(&chain, &[ring]).record.reached, [0; 1024]);
    let record = compare_quick(&chain, &[ring, parted]).record;
    assert_eq!((record.lifted, record.redone), (vec![0, 0], vec![1024, 1024]));
    // its ends are 511 and 512 now, and from each half the search goes on to 0 or 1,023 in the middle
    assert!(record.reached.into_iter().eq((0..512).chain((0..512).rev())));
    // a star loses two of its 1,023 edges, and another edge is added
    let star = Pool::of_edges(1024, (1..1024).map(|v| (0, v)), vec![0; 1024]);
    let left = compare_quick(&star, &[Event::drop_edge(0, 1), Event::drop_edge(1023, 0), Event::add_edge(1, 2), Event::anchor(0)]);
    let after = Ok(Size { edges: 1022, max_degree: 1021 });
    assert_eq!((left.size, table_size(&left.pool())), (Size { edges: 1023, max_degree: 1023 }, after));
    // 4,096 events
    let mut random = Random(3316624790);
    let pool = Pool::random(&mut random, 40, 90);
    let events: Vec<Event> = pool.random_events(&mut random, 4097);
    let left = compare_quick(&pool, &events[..4096]);
    let done = left.record.status.iter().filter(|&&status| status == 0).count();
    println!("4,096 events on 40 vertices, {done} accepted");
    assert!(done > 1000);
    Call::new(&pool, &events).refused(11, 0);
}
