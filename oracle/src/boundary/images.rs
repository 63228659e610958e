//! The operations on images, R85 to R92, R98 and R102.

use crate::card;
use crate::image;
use crate::rules;
use crate::types::{Refusal, Request, Table, COUNTS, EMPTY, SLOTS};

/// R92: the numbers of a request.
pub const NUMBERS: usize = SLOTS + 2;

/// R85.
pub fn empty(buffer: &mut [u8]) -> Result<usize, Refusal> {
    image::write(&EMPTY, buffer)
}

/// R43: the new line's slot; where something is granted there is one (R22).
fn new_slot(table: &Table) -> usize {
    table.lowest_empty().expect("a table that was granted")
}

/// R86: the start and the slot.
pub fn ask(image: &[u8], request: &Request) -> Result<(u64, usize), Refusal> {
    let table = image::read(image)?;
    let start = rules::ask(&table, request)?;
    Ok((start, new_slot(&table)))
}

/// R87: the same, and the admitted table in place of the one that was asked.
pub fn admit(image: &mut [u8], request: &Request) -> Result<(u64, usize), Refusal> {
    let table = image::read(image)?;
    let (start, next) = rules::admit(&table, request)?;
    image::write(&next, image)?;
    Ok((start, new_slot(&table)))
}

/// R88: the slot that ran.
pub fn step(image: &mut [u8]) -> Result<Option<usize>, Refusal> {
    let (next, ran) = rules::step(&image::read(image)?)?;
    image::write(&next, image)?;
    Ok(ran)
}

/// R102: in how many ticks the slot that the number names holds nothing.
pub fn leave(image: &mut [u8], number: u64) -> Result<u64, Refusal> {
    let (ticks, next) = rules::leave(&image::read(image)?, number)?;
    image::write(&next, image)?;
    Ok(ticks)
}

/// R89.
pub fn ready(image: &[u8]) -> Result<u16, Refusal> {
    Ok(rules::ready(&image::read(image)?))
}

/// R98: the clock, and all the counts, whether R24 would refuse the table or not.
pub fn counts(image: &[u8], lent: &mut [u64; COUNTS]) -> Result<u64, Refusal> {
    let table = image::read(image)?;
    *lent = table.counts.all();
    Ok(table.clock)
}

/// R91.
pub fn write_card(image: &[u8], request: &Request, buffer: &mut [u8]) -> Result<usize, Refusal> {
    card::write(&image::read(image)?, request, buffer)
}

/// R92: the request goes out only where the image does.
pub fn read_card(
    bytes: &[u8],
    buffer: &mut [u8],
    numbers: &mut [u16; NUMBERS],
) -> Result<usize, Refusal> {
    let card::Parsed { table, request, .. } = card::parse(bytes)?;
    let length = image::write(&table, buffer)?;
    numbers[..SLOTS].copy_from_slice(&request.stretched);
    numbers[SLOTS] = request.need;
    numbers[SLOTS + 1] = request.period;
    Ok(length)
}
