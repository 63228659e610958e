//! What is asked for, and what is granted.

use crate::{REQUEST_SIZE, SLOTS};

/// R6: a new line, and the periods to which those of the others are stretched.
///
/// [`Pump::request`](crate::Pump::request) makes one with which every line keeps its period.
#[derive(Clone, Copy, Debug, PartialEq, Eq, Hash)]
pub struct Request {
    /// The ticks of pump that the new line wants in every period.
    pub need: u16,
    /// The ticks of its period.
    pub period: u16,
    /// For each slot the new period of its line, not below the present one, and equal to it where the line leaves (R25). Where no
    /// line runs it is never looked at.
    pub stretched: [u16; SLOTS],
}

impl Request {
    /// A new line for a table on which no line runs: every stretched period is 0.
    #[must_use]
    pub const fn new(need: u16, period: u16) -> Request {
        Request {
            need,
            period,
            stretched: [0; SLOTS],
        }
    }

    /// The same with another stretched period for a slot.
    ///
    /// # Panics
    /// If there is no such slot.
    #[must_use]
    pub const fn stretch(mut self, slot: usize, period: u16) -> Request {
        self.stretched[slot] = period;
        self
    }

    /// R92: the sixteen stretched periods, then need and period.
    pub(crate) fn from_numbers(numbers: [u16; REQUEST_SIZE]) -> Request {
        let [stretched @ .., need, period] = numbers;
        Request {
            need,
            period,
            stretched,
        }
    }
}

/// R86: when and where the new line starts.
#[derive(Clone, Copy, Debug, PartialEq, Eq, Hash)]
pub struct Answer {
    /// The tick of its start, by the table's clock.
    pub start: u64,
    /// The slot that it has.
    pub slot: usize,
}
