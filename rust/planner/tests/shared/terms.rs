//! Calls about terms: all that one is handed, and what is expected of it.

use super::exports::{self, Answer};
use super::faults::OnTable;
use super::{refusal, size};
use planner::{FirstDay, Refusal, Size};
use pools::Pool;
use reference::{Term, TermLists};
use std::ops::Range;

/// Terms as the planner takes them.
pub fn handed(terms: &[Term]) -> Vec<planner::Term> {
    terms.iter().map(|&Term { vertex, first, end }| planner::Term { vertex, first, end }).collect()
}

/// All that a call is handed; the pool's bytes have no part in it.
#[derive(Clone, Debug)]
pub struct Call {
    pub pool: Pool,
    pub vertices: Vec<u16>,
    pub firsts: Vec<u16>,
    pub ends: Vec<u16>,
    pub days: Range<u16>,
    pub x: usize,
    pub k: u16,
}

impl OnTable for Call {
    fn pool(&mut self) -> &mut Pool {
        &mut self.pool
    }
}

impl Call {
    pub fn new(pool: &Pool, terms: &[Term], days: Range<u16>, x: usize, k: u16) -> Call {
        let column = |pick: fn(&Term) -> u16| terms.iter().map(pick).collect();
        let [vertices, firsts, ends] = [column(|term| term.vertex), column(|term| term.first), column(|term| term.end)];
        Call { pool: pool.clone(), vertices, firsts, ends, days, x, k }
    }

    /// As the archive answers it, the lists of one length or not.
    pub fn make(&self) -> Answer {
        let Call { pool: Pool { starts, links, .. }, vertices, firsts, ends, days, x, k } = self;
        // SAFETY: pointers and lengths of live slices, which the call only reads.
        unsafe {
            exports::planner_first_day(
                starts.as_ptr(), starts.len(), links.as_ptr(), links.len(), vertices.as_ptr(), vertices.len(),
                firsts.as_ptr(), firsts.len(), ends.as_ptr(), ends.len(), days.start, days.end, *x, *k,
            )
        }
    }

    /// What the naive working of every day answers.
    fn expected(&self) -> Result<FirstDay, Refusal> {
        let Call { pool: Pool { starts, links, .. }, vertices, firsts, ends, days, x, k } = self;
        let lists = TermLists { vertices, firsts, ends };
        let (graph, terms) = reference::admit_terms(starts, links, lists, *x).map_err(refusal)?;
        Ok(FirstDay { day: reference::first_day(&graph, &terms, days.clone(), *x, *k), size: size(reference::size(&graph)) })
    }

    /// The naive answer, which the archive must give number by number; and from Rust, where lists of several lengths cannot be handed over.
    pub fn compare(&self) -> Result<FirstDay, Refusal> {
        let Call { pool: Pool { starts, links, .. }, vertices, firsts, ends, days, x, k } = self;
        let (expected, Answer { number, first, second, edges, max_degree }) = (self.expected(), self.make());
        let told = match expected {
            Ok(FirstDay { day, size: Size { edges, max_degree } }) => {
                [0, day.map_or(0, u64::from), day.is_some() as u64, edges as u64, max_degree as u64]
            }
            Err(Refusal { number, place }) => [number, place, 0, 0, 0],
        };
        assert_eq!([number, first, second, edges, max_degree], told, "{self:?}");
        if firsts.len() == vertices.len() && ends.len() == vertices.len() {
            let days_of = firsts.iter().zip(ends);
            let terms = vertices.iter().zip(days_of).map(|(&vertex, (&first, &end))| planner::Term { vertex, first, end });
            assert_eq!(planner::first_day(starts, links, &terms.collect::<Vec<_>>(), days.clone(), *x, *k), expected, "{self:?}");
        }
        expected
    }
}
