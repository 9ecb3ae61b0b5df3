//! Refusals of a session as a whole: each with its place, each before those that are tested later, and what is lent left alone.

mod shared;

use planner::{Record, Refusal, Size};
use pools::{Pool, Random};
use reference::Event;
use shared::broken;
use shared::sessions::{compare_damaged, wrong_records, Call};
use std::collections::BTreeMap;

/// A ring of 12 vertices, so that list v is links 2v and 2v + 1, and an event of each kind; nothing is wrong.
fn sound() -> Call {
    let mut given = vec![0; 12];
    given[9] = 1;
    let ring = Pool::of_edges(12, (0..12).map(|v| (v, (v + 1) % 12)), given);
    Call::new(&ring, &[Event::anchor(3), Event::add_edge(0, 5), Event::drop_edge(1, 2), Event { kind: 3, first: 0, second: 0 }])
}

/// Something done to a call, and how the call is then refused.
struct Damage {
    refusal: Refusal,
    does: Box<dyn Fn(&mut Call)>,
}

fn damage(number: u64, place: u64, does: impl Fn(&mut Call) + 'static) -> Damage {
    Damage { refusal: Refusal { number, place }, does: Box::new(does) }
}

/// As many vertices more, none with a neighbor.
fn more_vertices(call: &mut Call, more: usize) {
    let last = *call.starts.last().unwrap();
    call.starts.extend(vec![last; more]);
    call.given.extend(vec![0; more]);
    let Record { anchored, levels, layers, components, yields, reached, stamps, .. } = &mut call.record;
    anchored.extend(vec![7; more]);
    yields.extend(vec![7; more]);
    for slice in [levels, layers, components, reached, stamps] {
        slice.extend(vec![7; more]);
    }
}

/// As many events more.
fn more_events(call: &mut Call, more: usize) {
    let Call { kinds, firsts, seconds, record: Record { status, lifted, redone, .. }, .. } = call;
    for slice in [kinds, firsts, seconds, status, lifted, redone] {
        slice.extend(vec![1; more]);
    }
}

/// Damages by what is tested, in the order of the tests: 1, 2, 12 of the links, 3 to 8, 9 of the bytes and of the lists, 10, 11, 12.
fn damages() -> Vec<Vec<Damage>> {
    let lists: [fn(&mut Call) -> &mut Vec<u16>; 3] = [|call| &mut call.kinds, |call| &mut call.firsts, |call| &mut call.seconds];
    let shorter = lists.map(|list| damage(9, 0, move |call| list(call).truncate(3)));
    let longer = lists.map(|list| damage(9, 0, move |call| list(call).push(0)));
    let records = 0..wrong_records(&sound().record).len();
    vec![
        vec![damage(1, 0, |call| call.starts.clear())],
        vec![damage(2, 0, |call| more_vertices(call, 1025 - 12))],
        vec![
            damage(12, 0, |call| call.links.truncate(16383)),
            damage(12, 0, |call| call.links.push(7)),
            // no place but those of the links
            damage(12, 0, |call| call.links.truncate(24)),
            damage(12, 0, |call| call.links.clear()),
        ],
        [16385, 65535].map(|last| damage(3, 0, move |call| *call.starts.last_mut().unwrap() = last)).into(),
        vec![
            damage(4, 0, |call| call.starts[0] = 1),
            damage(4, 3, |call| call.starts[3] = 3),
            damage(4, 8, |call| call.starts[7] = 65535),
        ],
        [12, 65535].map(|link| damage(5, 4, move |call| call.links[9] = link)).into(),
        vec![damage(6, 6, |call| call.links[13] = 6)],
        vec![damage(7, 8, |call| call.links.swap(16, 17)), damage(7, 8, |call| call.links[17] = 7)],
        vec![damage(8, 2, |call| call.links[5] = 5)],
        vec![
            damage(9, 0, |call| call.given.truncate(11)),
            damage(9, 0, |call| call.given.push(0)),
            damage(9, 0, |call| call.given.clear()),
        ],
        shorter.into_iter().chain(longer).collect(),
        vec![damage(10, 0, |call| call.given[0] = 255), damage(10, 5, |call| call.given[5] = 2)],
        vec![damage(11, 0, |call| more_events(call, 4097 - 4))],
        records.map(|i| damage(12, 0, move |call| call.record = wrong_records(&call.record)[i].clone())).collect(),
    ]
}

/// The call with some damages, those that are tested last done first; refused as the naive tests say, and so.
fn refused_with(damages: &[&Damage], refusal: Refusal) {
    let mut call = sound();
    damages.iter().rev().for_each(|damage| (damage.does)(&mut call));
    assert_eq!(call.admitted(), Err(refusal));
    call.refused(refusal.number, refusal.place);
}

#[test]
fn each_and_two_at_once() {
    let size = Ok(Size { edges: 12, max_degree: 2 });
    assert_eq!((sound().admitted(), sound().make()), (size, size));
    let (damages, mut single, mut pairs) = (damages(), 0, 0);
    for (i, group) in damages.iter().enumerate() {
        for first in group {
            refused_with(&[first], first.refusal);
            single += 1;
            for (j, second) in damages.iter().enumerate().skip(i + 1).flat_map(|(j, group)| group.iter().map(move |second| (j, second))) {
                // without starts there are not too many of them, and none is wrong
                if i == 0 && [1, 3, 4].contains(&j) {
                    continue;
                }
                refused_with(&[first, second], first.refusal);
                pairs += 1;
            }
        }
    }
    println!("{single} damages of a session's call, {pairs} pairs of them");
    // 1 1 4 2 3 2 1 2 1 3 6 2 1 20 in the groups; all pairs of two groups, but for six
    assert_eq!((single, pairs), (49, (49 * 49 - 491) / 2 - 6));
}

/// Up to five damages at once.
#[test]
fn several_at_once() {
    let (damages, mut random, mut seen) = (damages(), Random(1259921049), BTreeMap::new());
    for _ in 0..4000 {
        let first = random.below(14);
        let groups = (0..5).map(|_| first + random.below(14 - first)).filter(|&group| first > 0 || ![1, 3, 4].contains(&group));
        let mut chosen: Vec<usize> = [first].into_iter().chain(groups).collect();
        chosen.sort();
        chosen.dedup();
        let chosen: Vec<&Damage> = chosen.into_iter().map(|group| &damages[group][random.below(damages[group].len())]).collect();
        refused_with(&chosen, chosen[0].refusal);
        *seen.entry((first, chosen[0].refusal.number)).or_insert(0) += 1;
    }
    println!("4000 calls with up to five damages, by the test that fails first and its number: {seen:?}");
    assert_eq!(seen.into_keys().map(|(_, number)| number).collect::<Vec<_>>(), [1, 2, 12, 3, 4, 5, 6, 7, 8, 9, 9, 10, 11, 12]);
}

/// Tables that break a rule are refused as the check of a table refuses them, but that the last start says how many links there are.
#[test]
fn broken_tables() {
    let events = [Event::anchor(0), Event::add_edge(0, 2), Event::drop_edge(0, 1)];
    let mut differ = vec![];
    for (pool, e) in broken() {
        let number = compare_damaged(&pool, &events);
        let call = Call::new(&pool, &vec![events[0]; 4097]);
        if number == Some(e.number) {
            call.refused(e.number, e.place);
        } else {
            differ.push((e.number, number));
        }
    }
    // twice there are too many links and no start says so, but once start 0 is 1; once the last list lacks its link
    assert_eq!(differ, [(3, None), (4, Some(8)), (3, Some(4))]);
}

/// All tables of two vertices with small numbers.
#[test]
fn all_small_tables() {
    let mut seen = BTreeMap::new();
    for starts in 0..4 * 4 * 4u16 {
        for links in 0..3u16.pow(3) {
            let starts = vec![starts / 16, starts / 4 % 4, starts % 4];
            let links = (0..3).map(|i| links / 3u16.pow(i) % 3).collect();
            let pool = Pool { starts, links, anchored: vec![0, 1] };
            *seen.entry(compare_damaged(&pool, &[Event::add_edge(0, 1), Event::drop_edge(1, 0)])).or_insert(0) += 1;
        }
    }
    println!("1,728 small tables, by their refusals: {seen:?}");
    assert_eq!(seen.values().sum::<usize>(), 1728);
    assert_eq!(seen.into_keys().collect::<Vec<_>>(), [None, Some(4), Some(5), Some(6), Some(7), Some(8)]);
}

/// The limits: each is passed, and one more is refused.
#[test]
fn limits() {
    let single = Pool::of_edges(1024, [], vec![0; 1024]);
    let none = Ok(Size { edges: 0, max_degree: 0 });
    assert_eq!(Call::new(&single, &[]).make(), none);
    let more = Pool::of_edges(1025, [], vec![0; 1025]);
    Call::new(&more, &[]).refused(2, 0);
    let both = (0..64).flat_map(|u| (64..192).map(move |v| (u, v)));
    let full = Call::new(&Pool::of_edges(192, both, vec![0; 192]), &[]);
    assert_eq!(full.clone().make(), Ok(Size { edges: 8192, max_degree: 128 }));
    let mut longer = full.clone();
    longer.starts[192] = 16386;
    longer.refused(3, 0);
    let mut shorter = full;
    shorter.links.truncate(16382);
    shorter.refused(12, 0);
    let empty = Pool::of_edges(0, [], vec![]);
    assert_eq!(Call::new(&empty, &vec![Event::anchor(0); 4096]).make(), none);
    Call::new(&empty, &vec![Event::anchor(0); 4097]).refused(11, 0);
    for places in [0, 16383, 16385] {
        let mut call = Call::new(&empty, &[]);
        call.links.resize(places, 7);
        call.refused(12, 0);
    }
    let mut call = Call::new(&empty, &[]);
    call.starts = vec![2];
    call.clone().refused(4, 0);
    call.starts = vec![16385];
    call.refused(3, 0);
}
