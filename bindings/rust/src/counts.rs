//! What each bench has had.

use crate::{COUNTS, SLOTS};

/// R98: the counts of a table (R95), and the clock that they are held against.
#[derive(Clone, Copy, Debug, PartialEq, Eq, Hash)]
pub struct Counts {
    /// For each slot the ticks that its present line has had since it was admitted.
    pub had: [u64; SLOTS],
    /// The ticks in which no line ran.
    pub idle: u64,
    /// The ticks of lines that are gone (R101).
    pub departed: u64,
    /// The table's clock. On a pump that began as [`Pump::new`](crate::Pump::new) and was never read from bytes the counts
    /// add up to it (R79); on one that was read from a card they begin at 0.
    pub clock: u64,
}

impl Counts {
    /// R98: the counts of the slots, slot 0 first, then the idle count, then the departed one.
    pub(crate) fn from_numbers(numbers: [u64; COUNTS], clock: u64) -> Counts {
        let [had @ .., idle, departed] = numbers;
        Counts {
            had,
            idle,
            departed,
            clock,
        }
    }

    /// R96: all counts together, exact.
    #[must_use]
    pub fn sum(&self) -> u128 {
        let had: u128 = self.had.iter().copied().map(u128::from).sum();
        had + u128::from(self.idle) + u128::from(self.departed)
    }
}
