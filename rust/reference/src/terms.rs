//! Terms: card 8 of document 02. Who is anchored on a day and what levels that gives is worked out afresh for each day of a span.

use crate::{check_table, levels, Graph, Refusal};
use std::ops::Range;

/// The vertex is anchored on a day when first <= day < end.
#[derive(Clone, Copy, PartialEq, Eq, Debug)]
pub struct Term {
    pub vertex: u16,
    pub first: u16,
    pub end: u16,
}

impl Term {
    pub fn holds(&self, day: u16) -> bool {
        self.first <= day && day < self.end
    }
}

/// The three lists of a call.
#[derive(Clone, Copy)]
pub struct TermLists<'a> {
    pub vertices: &'a [u16],
    pub firsts: &'a [u16],
    pub ends: &'a [u16],
}

/// The tests of a call about x in their order: 1 to 8, 9, 15 of the terms, 15 of x, 24, 25.
pub fn admit_terms(starts: &[u16], links: &[u16], lists: TermLists, x: usize) -> Result<(Graph, Vec<Term>), Refusal> {
    let TermLists { vertices, firsts, ends } = lists;
    let graph = check_table(starts, links)?;
    let (n, m) = (graph.size(), vertices.len());
    if firsts.len() != m || ends.len() != m {
        return Err((9, 0));
    }
    if let Some(&v) = vertices.iter().find(|&&v| v as usize >= n) {
        return Err((15, v as u64));
    }
    if x >= n {
        return Err((15, x as u64));
    }
    if m > 256 {
        return Err((24, 0));
    }
    if let Some(i) = (0..m).find(|&i| ends[i] <= firsts[i]) {
        return Err((25, i as u64));
    }
    Ok((graph, (0..m).map(|i| Term { vertex: vertices[i], first: firsts[i], end: ends[i] }).collect()))
}

/// Who of n vertices is anchored on a day.
pub fn anchored_on(n: usize, terms: &[Term], day: u16) -> Vec<bool> {
    (0..n).map(|v| terms.iter().any(|term| term.vertex as usize == v && term.holds(day))).collect()
}

/// The levels on a day.
pub fn levels_on(graph: &Graph, terms: &[Term], day: u16) -> Vec<u16> {
    levels(graph, &anchored_on(graph.size(), terms, day))
}

/// The first of the days on which x is under k: an anchored vertex never is, because no k is above its level.
pub fn first_day(graph: &Graph, terms: &[Term], mut days: Range<u16>, x: usize, k: u16) -> Option<u16> {
    days.find(|&day| levels_on(graph, terms, day)[x] < k)
}
