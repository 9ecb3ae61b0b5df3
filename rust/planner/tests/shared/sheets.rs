//! What calls that are handed a level sheet and a vertex are compared on, whichever of them it is.

use super::cases::Case;
use super::{small_pools, strangers};
use pools::{Pool, Random};

/// A call that is handed a level sheet and a vertex; it notes what it was compared on.
pub trait OnSheet: Default {
    /// The call for x on some sheet, with the right length of whatever else it is lent.
    fn call(&mut self, case: &Case, sheet: &[Vec<u16>; 2], x: usize);

    /// The call with each wrong sheet, and with each wrong length of whatever else it is lent.
    fn wrong(&mut self, case: &Case);

    /// The call for each of some numbers, with the defined sheet.
    fn right(&mut self, case: &Case, numbers: impl IntoIterator<Item = usize>) {
        let sheet = case.sheet();
        for x in numbers {
            self.call(case, &sheet, x);
        }
    }

    /// For a vertex, anchored or not, and for n: the sheet comes before them.
    fn wrong_sheet(&mut self, case: &Case, sheet: &[Vec<u16>; 2]) {
        for x in [0, case.pool.size()] {
            self.call(case, sheet, x);
        }
    }
}

/// What came of right calls, of wrong ones, of sheets with several numbers wrong, and of damaged pools.
#[derive(Default)]
pub struct Every<C> {
    pub right: C,
    pub wrong: C,
    pub several: C,
    pub damaged: C,
}

impl<C: OnSheet> Every<C> {
    fn pool(&mut self, pool: &Pool, numbers: impl IntoIterator<Item = usize>, sheets: usize, random: &mut Random) {
        let case = Case::naive(pool);
        self.right.right(&case, numbers);
        self.wrong.wrong(&case);
        for _ in 0..sheets {
            self.several.wrong_sheet(&case, &case.damaged_sheet(random));
        }
        let pool = pool.damaged(random);
        let case = Case::naive(&pool);
        self.damaged.right(&case, 0..=pool.size());
        self.damaged.wrong(&case);
    }

    /// On all graphs of up to 5 vertices with every anchor set.
    pub fn small_graphs() -> Self {
        let (mut every, mut random) = (Every::default(), Random(88172645463325252));
        for pool in small_pools(5) {
            let n = pool.size();
            every.pool(&pool, (0..n).chain(strangers(n)), 1, &mut random);
        }
        every
    }

    /// On so many random graphs of up to 12 vertices, one in twenty of up to `most`.
    pub fn random_graphs(count: usize, most: usize) -> Self {
        let (mut every, mut random) = (Every::default(), Random(2463534242));
        for i in 0..count {
            let pool = Pool::random_small(&mut random, if i % 20 == 0 { most } else { 12 });
            every.pool(&pool, 0..=pool.size(), 10, &mut random);
        }
        every
    }
}
