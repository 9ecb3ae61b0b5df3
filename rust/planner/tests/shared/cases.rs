//! A pool with what is defined for it, worked out once for all calls; sheets other than the defined one.

use super::{anchor_set, plain, refusal, size, wrong_lengths};
use planner::{Refusal, Size};
use pools::{Pool, Random};
use reference::{quick, Anchoring, Graph, Search, Sheet};
use std::collections::BTreeSet;

/// What the answers are compared with: the sheet of a sound pool, and with its sheet worked out the search from a vertex, its ceiling, and
/// the marks of those who fall with a vertex gone.
pub struct Working {
    pub sheet: fn(&Pool) -> Sheet,
    pub search: fn(&Pool, &Defined, usize) -> Search,
    pub ceiling: fn(&Pool, &Defined, usize) -> u16,
    pub collapse: fn(&Pool, &Defined, usize) -> Vec<u8>,
}

static NAIVE: Working = Working {
    sheet: |pool| {
        let (graph, set) = reference::admit(&pool.starts, &pool.links, &pool.anchored).unwrap();
        reference::sheet(&graph, &set)
    },
    search: |_, Defined { graph, at, .. }, x| reference::search(graph, at, x),
    ceiling: |_, Defined { graph, at, .. }, x| reference::ceiling(graph, at, x),
    collapse: |_, Defined { graph, at, .. }, x| reference::collapse(graph, &at.anchored, x),
};

static QUICK: Working = Working {
    sheet: |pool| quick::sheet(plain(pool), &anchor_set(pool)),
    search: |pool, Defined { at, .. }, x| quick::search(plain(pool), &at.anchored, &at.sheet, x),
    ceiling: |pool, Defined { at, .. }, x| quick::ceiling(plain(pool), &at.anchored, &at.sheet, x),
    collapse: |pool, Defined { at, .. }, x| quick::collapse(plain(pool), &at.anchored, x),
};

/// What is defined for a sound pool; the sheet is worked out once for all calls, and the table's size counted.
pub struct Defined {
    pub graph: Graph,
    pub size: Size,
    pub at: Anchoring,
    pub working: &'static Working,
}

/// A pool, and what is defined for it or why it is refused.
pub struct Case<'a> {
    pub pool: &'a Pool,
    pub defined: Result<Defined, Refusal>,
}

impl Case<'_> {
    fn new<'a>(pool: &'a Pool, working: &'static Working) -> Case<'a> {
        let admitted = reference::admit(&pool.starts, &pool.links, &pool.anchored).map_err(refusal);
        let defined = admitted.map(|(graph, anchored)| {
            let (size, sheet) = (size(reference::size(&graph)), (working.sheet)(pool));
            Defined { graph, size, at: Anchoring { anchored, sheet }, working }
        });
        Case { pool, defined }
    }

    pub fn naive(pool: &Pool) -> Case<'_> {
        Case::new(pool, &NAIVE)
    }

    /// By the quick working.
    pub fn quick(pool: &Pool) -> Case<'_> {
        Case::new(pool, &QUICK)
    }

    /// What is defined, where the lent slices have the right length.
    pub fn lent(&self, lengths: &[usize]) -> Result<&Defined, Refusal> {
        let defined = self.defined.as_ref().map_err(|e| *e)?;
        if lengths.iter().any(|&length| length != self.pool.size()) {
            return Err(Refusal { number: 12, place: 0 });
        }
        Ok(defined)
    }

    /// What the naive tests of a sheet answer: the table's size, or why it is refused.
    pub fn checked(&self, [levels, layers]: &[Vec<u16>; 2]) -> Result<Size, Refusal> {
        let Defined { graph, size, at, .. } = self.lent(&[])?;
        reference::check_sheet(graph, &at.anchored, levels, layers).map(|_| *size).map_err(refusal)
    }

    /// The defined levels and layers, or as many numbers where nothing is defined.
    pub fn sheet(&self) -> [Vec<u16>; 2] {
        match &self.defined {
            Ok(Defined { at, .. }) => [at.sheet.level.clone(), at.sheet.layer.clone()],
            Err(_) => [vec![0; self.pool.size()], vec![1; self.pool.size()]],
        }
    }

    /// Sheets other than the given one: a half too short or too long, a number one too high or too low, 0, or the greatest.
    pub fn wrong_sheets(&self) -> impl Iterator<Item = [Vec<u16>; 2]> + '_ {
        let n = self.pool.size();
        (0..2).flat_map(move |half| {
            let lengths = wrong_lengths(n).map(move |length| {
                let mut sheet = self.sheet();
                sheet[half].resize(length, 0);
                sheet
            });
            let numbers = (0..n).flat_map(move |v| {
                let sheet = self.sheet();
                wrong_numbers(sheet[half][v]).into_iter().map(move |number| {
                    let mut wrong = sheet.clone();
                    wrong[half][v] = number;
                    wrong
                })
            });
            lengths.chain(numbers)
        })
    }

    /// The given sheet with up to four numbers changed, so that several tests may fail at once.
    pub fn damaged_sheet(&self, random: &mut Random) -> [Vec<u16>; 2] {
        let mut sheet = self.sheet();
        for _ in 0..1 + random.below(4) {
            if let (half, Some(v)) = (random.below(2), random.below(self.pool.size() + 1).checked_sub(1)) {
                let wrong: Vec<u16> = wrong_numbers(sheet[half][v]).into_iter().collect();
                sheet[half][v] = wrong[random.below(wrong.len())];
            }
        }
        sheet
    }
}

/// Wrong in each way: one too high or too low, 0, or the greatest.
fn wrong_numbers(right: u16) -> BTreeSet<u16> {
    let mut numbers = BTreeSet::from([right.wrapping_add(1), right.wrapping_sub(1), 0, u16::MAX]);
    numbers.remove(&right);
    numbers
}

/// Of the defined sheets of all graphs of up to 5 vertices, with one number wrong in each way: how many are refused with each number,
/// and of these how many at a place other than 0. The figures were counted apart from the tests.
pub const WRONG_ENTRIES: [(u64, usize, usize); 4] =
    [(14, 420_365, 335_700), (19, 232_950, 181_905), (20, 109_256, 86_652), (21, 141_850, 113_270)];
