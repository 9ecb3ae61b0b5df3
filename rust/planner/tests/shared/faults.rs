//! Faults of a call on a chain of 8 vertices, in the order in which they are tested, several at once too.

use pools::Pool;
use std::fmt::Debug;

/// A fault, and what is answered where no other comes before it.
pub type Fault<C> = (u64, u64, fn(&mut C));

/// A call on a table.
pub trait OnTable {
    fn pool(&mut self) -> &mut Pool;
}

pub fn chain(anchored: Vec<u8>) -> Pool {
    Pool::of_edges(8, (0..7).map(|v| (v, v + 1)), anchored)
}

/// One for each of 1 to 8, and behind them those of the call's own lists.
pub fn faults<C: OnTable>(own: &[Fault<C>]) -> Vec<Fault<C>> {
    let table: [Fault<C>; 8] = [
        (1, 0, |call| call.pool().starts.clear()),
        (2, 0, |call| call.pool().starts.resize(1026, 14)),
        (3, 0, |call| call.pool().links.resize(16385, 0)),
        (4, 2, |call| call.pool().starts[2] = 0),
        (5, 1, |call| call.pool().links[2] = 9),
        (6, 3, |call| call.pool().links[5] = 3),
        (7, 5, |call| call.pool().links.swap(9, 10)),
        (8, 6, |call| call.pool().links[13] = 0),
    ];
    table.into_iter().chain(own.iter().copied()).collect()
}

/// Of each fault alone, of every two at once, and of each with all that come after it the first is told.
pub fn first_is_told<C: Clone, T: Debug + PartialEq>(faults: &[Fault<C>], call: &C, answer: impl Fn(&C) -> Result<T, (u64, u64)>) {
    let told = |faults: &[Fault<C>]| {
        let mut call = call.clone();
        // a later one first: it may not find its place once an earlier one has been at work
        faults.iter().rev().for_each(|(_, _, fault)| fault(&mut call));
        answer(&call)
    };
    for (i, &fault) in faults.iter().enumerate() {
        let first = Err((fault.0, fault.1));
        assert_eq!(told(&[fault]), first);
        for &other in &faults[i + 1..] {
            assert_eq!(told(&[fault, other]), first, "and {}", other.0);
        }
        assert_eq!(told(&faults[i..]), first);
    }
}
