//! The first day under a level against plain Rust that works every day of the span afresh.

use crate::measures::{plain, thousand, times, Line, Sheet};
use planner::Term;
use pools::{Pool, Random};
use reference::quick;
use std::hint::black_box;

/// Terms of as many vertices, which begin and end on days that are all different and lie behind the first of so many; and a vertex that has
/// none of them.
fn spread(pool: &Pool, random: &mut Random, terms: usize, days: u16) -> (Vec<reference::Term>, usize) {
    let (mut vertices, mut changes): (Vec<u16>, Vec<u16>) = ((0..pool.size() as u16).collect(), (1..days).collect());
    random.shuffle(&mut vertices);
    random.shuffle(&mut changes);
    let term = |i: usize| {
        let (a, b) = (changes[2 * i], changes[2 * i + 1]);
        reference::Term { vertex: vertices[i], first: a.min(b), end: a.max(b) }
    };
    ((0..terms).map(term).collect(), vertices[terms] as usize)
}

/// The terms, and the days of the span: as many terms as there may be, and a year with few.
const SPANS: [(usize, u16); 2] = [(256, 900), (20, 365)];

/// The bytes of the span's first day and of each day on which a term ends: on other days no level falls.
fn counting_days(pool: &Pool, terms: &[reference::Term]) -> Vec<Vec<u8>> {
    let bytes = |day: u16| reference::anchored_on(pool.size(), terms, day).into_iter().map(u8::from).collect();
    [0].into_iter().chain(terms.iter().map(|term| term.end)).map(bytes).collect()
}

/// Of a vertex without a term, under the level that it has with nobody anchored: it is under it on no day, and the whole span must be gone
/// through.
pub fn first_day(seeds: &[u64]) -> Vec<Line> {
    let ours = |(terms, days): (usize, u16)| format!("first day under a level: {terms} terms, {} days on which one begins or ends, a span of {days} days, none under it", 2 * terms);
    let theirs = |(_, days): (usize, u16)| format!("plain Rust: levels by buckets for each of the {days} days, no checks");
    let mut lines: Vec<Line> = SPANS.map(|span| Line::new(&ours(span), &theirs(span))).into();
    let fresh = format!("the planner's fresh working of the first day and of the {} on which a term ends", SPANS[0].0);
    lines.push(Line::new(&ours(SPANS[0]), &fresh));
    for &seed in seeds {
        let (pool, mut random, mut sheet) = (thousand(seed), Random(seed * 49979687), Sheet::room(1000));
        for (i, (count, days)) in SPANS.into_iter().enumerate() {
            let (terms, x) = spread(&pool, &mut random, count, days);
            let k = quick::bare_levels(plain(&pool))[x];
            let handed: Vec<Term> = terms.iter().map(|&reference::Term { vertex, first, end }| Term { vertex, first, end }).collect();
            let (mut on_day, bytes) = (pool.clone(), counting_days(&pool, &terms));
            let (mut day, mut expected) = (Some(0), Some(0));
            let [ours, theirs, fresh] = times(
                5,
                1,
                [
                    &mut || day = planner::first_day(&pool.starts, &pool.links, &handed, 0..days, x, k).unwrap().day,
                    &mut || expected = quick::first_day(black_box(plain(&pool)), &terms, 0..days, x, k),
                    &mut || {
                        for bytes in &bytes {
                            on_day.anchored.copy_from_slice(bytes);
                            sheet.work(&on_day);
                        }
                    },
                ],
            );
            assert_eq!((day, expected), (None, None));
            lines[i].times.push((ours, theirs));
            if i == 0 {
                lines[2].times.push((ours, fresh));
            }
        }
    }
    lines
}
