//! The ceiling of a search: card 11 of document 02, by the recursion that it states.

use crate::{check_sheet, Anchoring, Graph, Refusal, Sheet};
use std::collections::HashMap;

/// The tests of a search behind those of the table and the bytes, but that of its marks: 13, 14, 19, 20, 21, 15, 16.
pub fn check_search(graph: &Graph, anchored: &[bool], level: &[u16], layer: &[u16], x: usize) -> Result<(), Refusal> {
    check_sheet(graph, anchored, level, layer)?;
    match anchored.get(x) {
        None => Err((15, x as u64)),
        Some(true) => Err((16, x as u64)),
        Some(false) => Ok(()),
    }
}

/// Which rule a step goes by.
#[derive(Clone, Copy)]
enum Step {
    First,
    Later,
}

/// Whom an upstair walk at v may step to.
fn steps(graph: &Graph, at: &Anchoring, step: Step, v: usize) -> Vec<usize> {
    let Anchoring { anchored, sheet: Sheet { level, layer, .. } } = at;
    let may_step = |u: usize| match step {
        Step::First => (level[u], layer[u]) > (level[v], layer[v]),
        Step::Later => level[u] == level[v] && layer[u] > layer[v],
    };
    graph.neighbors[v].iter().copied().filter(|&u| !anchored[u] && may_step(u)).collect()
}

/// From v on: the sum, over its steps, of 1 plus what there is from there, by the rule for later steps; `known` has that of vertices met
/// before. A sum that is too great for its type stays at the greatest.
fn from(graph: &Graph, at: &Anchoring, step: Step, v: usize, known: &mut HashMap<usize, u128>) -> u128 {
    let mut sum = 0u128;
    for u in steps(graph, at, step, v) {
        let there = known.get(&u).copied().unwrap_or_else(|| from(graph, at, Step::Later, u, known));
        known.insert(u, there);
        sum = sum.saturating_add(1).saturating_add(there);
    }
    sum
}

/// The ceiling before it is capped, which is how many upstair walks there are from x, of one step or more.
pub fn upstair_walks(graph: &Graph, at: &Anchoring, x: usize) -> u128 {
    from(graph, at, Step::First, x, &mut HashMap::new())
}

/// The ceiling from x, which is not anchored: capped at 65,535.
pub fn ceiling(graph: &Graph, at: &Anchoring, x: usize) -> u16 {
    upstair_walks(graph, at, x).min(65535) as u16
}
