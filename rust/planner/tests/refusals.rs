//! The words of refusals: every number has its own, in rust/planner and in include/planner.h; and the statuses of events in the latter.

mod source;

use planner::Refusal;
use std::collections::BTreeSet;
use std::error::Error;

/// The numbers that calls answer; 22 and 23 are statuses of events.
fn numbers() -> impl Iterator<Item = u64> {
    (1..=21).chain(24..=27)
}

/// Those whose place is not always 0.
const PLACED: [u64; 15] = [4, 5, 6, 7, 8, 10, 14, 15, 16, 18, 19, 20, 21, 25, 27];

fn words(number: u64, place: u64) -> String {
    let refusal: Box<dyn Error> = Box::new(Refusal { number, place });
    refusal.to_string()
}

#[test]
fn every_number_has_words() {
    let unknown = |number: u64| format!("{number} is no refusal's number");
    let all: BTreeSet<String> = numbers().map(|number| words(number, 0)).collect();
    assert_eq!(all.len(), numbers().count());
    assert!(numbers().all(|number| words(number, 0) != unknown(number)));
    assert!([0, 22, 23, 28, u64::MAX].into_iter().all(|number| words(number, 3) == unknown(number)));
    for number in numbers() {
        let told = words(number, 777);
        assert_eq!(told.contains("777"), PLACED.contains(&number), "{told}");
    }
}

/// A line of the header's table: the number, and the first word of its place.
fn row(line: &str) -> Option<(u64, &str)> {
    let mut words = line.strip_prefix(" * ")?.split_whitespace();
    Some((words.next()?.parse().ok()?, words.next()?))
}

#[test]
fn the_header_lists_them() {
    let header = source::file("include/planner.h");
    let rows: Vec<(u64, &str)> = header.lines().filter_map(row).collect();
    assert!(rows.iter().map(|&(number, _)| number).eq(numbers()), "{rows:?}");
    let placed = rows.iter().filter(|(_, place)| *place != "0").map(|&(number, _)| number);
    assert!(placed.eq(PLACED), "{rows:?}");
}

/// The statuses of events in the order of their tests, each on a line of its own as the number and a colon.
#[test]
fn the_header_lists_statuses() {
    let header = source::file("include/planner.h");
    let number = |line: &str| line.strip_prefix(" * ")?.trim_start().split_once(": ")?.0.parse::<u64>().ok();
    assert!(header.lines().filter_map(number).eq([10, 6, 15, 16, 22, 23]));
}
