//! Calls of houses that share the rounds: all that one is handed and lent, and what is expected of it.

use super::exports::{self, Answer};
use super::faults::OnTable;
use super::{anchor_set, held_bytes, input, plain, refusal, size, table_size};
use planner::{Refusal, Shared, Size};
use pools::Pool;
use reference::quick::{self, Scope};
use reference::{Houses, Plain};

/// All that a call is handed, and how many bytes it is lent.
#[derive(Clone, Debug)]
pub struct Call {
    pub pool: Pool,
    pub houses: Vec<u16>,
    pub quotas: Vec<u16>,
    pub room: usize,
}

/// The sheet and the size of its table, or why the call is refused.
type Expected = Result<(Vec<u8>, Size), Refusal>;

impl OnTable for Call {
    fn pool(&mut self) -> &mut Pool {
        &mut self.pool
    }
}

impl Call {
    /// Lent as many bytes as the sheet takes, for quotas of any sum not more than the longest one does.
    pub fn new(pool: &Pool, houses: &[u16], quotas: &[u16]) -> Call {
        let (pool, houses, quotas) = (pool.clone(), houses.to_vec(), quotas.to_vec());
        let lines = Houses { of: &houses, quotas: &quotas }.lines().min(60);
        Call { room: lines * (48 + pool.size()), pool, houses, quotas }
    }

    fn houses(&self) -> Houses<'_> {
        Houses { of: &self.houses, quotas: &self.quotas }
    }

    /// As much of it as helps where it is not answered as expected.
    fn said(&self) -> String {
        format!("{self:?}").chars().take(1000).collect()
    }

    /// As the archive answers it, and the bytes that it was lent.
    pub fn make(&self) -> (Answer, Vec<u8>) {
        let (Call { pool: Pool { starts, links, anchored }, houses, quotas, .. }, mut sheet) = (self, held_bytes(self.room));
        // SAFETY: pointers and lengths of live slices, of which nothing else borrows the one for writing.
        let answer = unsafe {
            exports::planner_houses(
                starts.as_ptr(), starts.len(), links.as_ptr(), links.len(), anchored.as_ptr(), anchored.len(),
                houses.as_ptr(), houses.len(), quotas.as_ptr(), quotas.len(), sheet.as_mut_ptr(), sheet.len(),
            )
        };
        (answer, sheet)
    }

    /// The bytes with an expected sheet at their front, where there is one; the others hold what they held.
    fn filled(&self, expected: &Expected) -> Vec<u8> {
        let mut bytes = held_bytes(self.room);
        if let Ok((sheet, _)) = expected {
            bytes[..sheet.len()].copy_from_slice(sheet);
        }
        bytes
    }

    /// The archive answers it number by number and byte by byte.
    fn is_answered(&self, expected: &Expected) {
        let told = match expected {
            Ok((sheet, Size { edges, max_degree })) => [0, sheet.len() as u64, 0, *edges as u64, *max_degree as u64],
            Err(Refusal { number, place }) => [*number, *place, 0, 0, 0],
        };
        let (Answer { number, first, second, edges, max_degree }, left) = self.make();
        assert_eq!([number, first, second, edges, max_degree], told, "{}", self.said());
        let bytes = self.filled(expected);
        assert!(left == bytes, "{} where {} is expected: {}", text(&left), text(&bytes), self.said());
    }

    /// And so does the call from Rust.
    fn is_answered_in_rust(&self, expected: &Expected) {
        let mut lent = held_bytes(self.room);
        let answer = planner::share_rounds(input(&self.pool), &self.houses, &self.quotas, &mut lent);
        let told = expected.as_ref().map(|(sheet, size)| Shared { length: sheet.len(), size: *size });
        assert_eq!(answer.as_ref(), told.as_ref().map_err(|e| *e), "{}", self.said());
        assert!(lent == self.filled(expected), "{}", self.said());
    }

    /// By the naive working, where others have been worked out.
    fn expected(&self, naive: &mut Plain) -> Expected {
        let Pool { starts, links, anchored } = &self.pool;
        let (graph, set) = reference::admit_houses(starts, links, anchored, self.houses(), self.room).map_err(refusal)?;
        Ok((reference::share_rounds(naive, &graph, &set, self.houses()), size(reference::size(&graph))))
    }

    /// The sheet of a call that must be accepted, against the naive working, where others have been worked out.
    pub fn compare_in(&self, naive: &mut Plain) -> String {
        let expected = self.expected(naive);
        self.is_answered(&expected);
        text(&expected.unwrap().0)
    }

    /// The sheet, against the naive working.
    pub fn compare(&self) -> Result<String, Refusal> {
        let expected = self.expected(&mut Plain::default());
        self.is_answered(&expected);
        self.is_answered_in_rust(&expected);
        expected.map(|(sheet, _)| text(&sheet))
    }

    /// The sheet of a call that must be accepted, against the quick working.
    pub fn compare_quick(&self) -> String {
        let sheet = quick::share_rounds(plain(&self.pool), &anchor_set(&self.pool), self.houses(), Scope::House);
        let expected = Ok((sheet, table_size(&self.pool).unwrap()));
        self.is_answered(&expected);
        text(&expected.unwrap().0)
    }
}

/// Bytes as text, whatever they are.
fn text(bytes: &[u8]) -> String {
    String::from_utf8_lossy(bytes).into_owned()
}

/// Whom the lines of a sheet anchor; None for a line with nobody left.
pub fn names(sheet: &str) -> Vec<Option<usize>> {
    sheet.lines().map(|line| line[18..22].parse().ok()).collect()
}
