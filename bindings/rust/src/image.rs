//! The operations on a table's image (R81) in lent bytes of any length.
//!
//! Bytes that are no image are refusal 11 at the offset of R83, before anything else. A refusal leaves every lent byte
//! as it was. [`Pump`](crate::Pump) does the same on bytes of its own.

use crate::numbers::{self, Numbers};
use crate::{Answer, Counts, Refusal, Request, COUNTS, REQUEST_SIZE};

/// R85: writes the image of the empty table to the start of `table`, and answers its length.
///
/// # Errors
/// Refusal 13 if `table` is too short.
pub fn empty(table: &mut [u8]) -> Result<usize, Refusal> {
    numbers::empty(table).granted(Numbers::length)
}

/// R86: when the new line could start, and in which slot.
///
/// # Errors
/// Refusal 11, or the first of 1 to 10 that holds; 10 says by how much it is late.
pub fn ask(table: &[u8], request: &Request) -> Result<Answer, Refusal> {
    numbers::ask(table, request.need, request.period, &request.stretched).granted(Numbers::answer)
}

/// R87: the same, and the new line is admitted.
///
/// # Errors
/// As [`ask`].
pub fn admit(table: &mut [u8], request: &Request) -> Result<Answer, Refusal> {
    numbers::admit(table, request.need, request.period, &request.stretched).granted(Numbers::answer)
}

/// R88: one tick; answers the slot that got it. [`Pump::step`](crate::Pump::step) says which that is.
///
/// # Errors
/// Refusal 11, 15, 4 or 14.
pub fn step(table: &mut [u8]) -> Result<Option<usize>, Refusal> {
    numbers::step(table).granted(Numbers::slot)
}

/// R102: lets the line of a slot go. A running line stays up to the end of its period, with what that still owes it; a waiting
/// one is removed at once. Answers in how many ticks the slot holds nothing.
///
/// # Errors
/// Refusal 11, 4, or 16 at the number as it is named, where it is no slot's, or its slot holds nothing or a line that leaves
/// already.
pub fn leave(table: &mut [u8], number: u64) -> Result<u64, Refusal> {
    numbers::leave(table, number).granted(Numbers::ticks)
}

/// R89: the ready word: bit k is 1 where slot k is still owed ticks (R49).
///
/// # Errors
/// Refusal 11.
pub fn ready(table: &[u8]) -> Result<u16, Refusal> {
    numbers::ready(table).granted(Numbers::word)
}

/// R98: what each bench has had, also where refusal 4 would come before anything else.
///
/// # Errors
/// Refusal 11.
pub fn counts(table: &[u8]) -> Result<Counts, Refusal> {
    let mut numbers = [0; COUNTS];
    let clock = numbers::counts(table, &mut numbers).granted(Numbers::ticks)?;
    Ok(Counts::from_numbers(numbers, clock))
}

/// R91: writes the card of a table and a request to the start of `card`, and answers its length.
///
/// # Errors
/// Refusal 11, 3 where a line waits, or 13 if `card` is too short.
pub fn write_card(table: &[u8], request: &Request, card: &mut [u8]) -> Result<usize, Refusal> {
    let Request { need, period, .. } = *request;
    numbers::write_card(table, need, period, &request.stretched, card).granted(Numbers::length)
}

/// R92: reads a card into an image and a request's numbers: the sixteen stretched periods, then need and period. Answers
/// the image's length.
///
/// # Errors
/// Refusal 11 of the reader, or 13 if `table` is too short.
pub fn read_card(
    card: &[u8],
    table: &mut [u8],
    request: &mut [u16; REQUEST_SIZE],
) -> Result<usize, Refusal> {
    numbers::read_card(card, table, request).granted(Numbers::length)
}
