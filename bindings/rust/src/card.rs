//! Cards, which go over the boundary whole.

use crate::numbers::{self, Numbers};
use crate::{Refusal, SLOTS};

/// R64: writes the answer line of a card, with its newline, to the start of `out`, and answers its length.
///
/// # Errors
/// Refusal 13 if `out` is too short. Any other refusal is a line.
pub fn answer(card: &[u8], out: &mut [u8]) -> Result<usize, Refusal> {
    numbers::answer(card, out).granted(Numbers::length)
}

/// R65: reads a card and writes its twin (R72) to the start of `out`: the card itself, but each TA record made a TB record.
///
/// # Errors
/// Refusal 11 of the reader, or 13 if `out` is too short.
pub fn rewrite(card: &[u8], out: &mut [u8]) -> Result<Rewritten, Refusal> {
    numbers::rewrite(card, out).granted(Numbers::rewritten)
}

/// R65: what was written anew.
#[derive(Clone, Copy, Debug, PartialEq, Eq, Hash)]
pub struct Rewritten {
    /// The card's bytes.
    pub length: usize,
    /// Bit k is 1 where slot k's record was TA.
    pub turned: u16,
}

impl Rewritten {
    /// The slots whose record was TA, lowest first.
    pub fn slots(self) -> impl Iterator<Item = usize> {
        (0..SLOTS).filter(move |slot| self.turned >> slot & 1 == 1)
    }
}

/// R66: admits the card's request, lets the pump run for `ticks` ticks, and answers in how many of them a line ran.
///
/// # Errors
/// The first refusal: the reader's, ask's, or a step's.
pub fn run(card: &[u8], ticks: u16) -> Result<u64, Refusal> {
    numbers::run(card, ticks).granted(Numbers::ticks)
}
