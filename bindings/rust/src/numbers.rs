//! The functions of `include/trimthuel.h` with the five numbers of a result (R63) as they come, and all that is unsafe.
//!
//! [`image`](crate::image), the functions on cards and [`Pump`](crate::Pump) stand on these and give them their meaning;
//! what each function does is said there.
//!
//! What the header demands of a caller holds in every call: what comes from a slice is good for its length and never null,
//! what comes from an array is good for it and aligned, and what is borrowed mutably overlaps nothing else.

use crate::{COUNTS, REQUEST_SIZE, SLOTS};

/// R63: what a call answers, `struct trimthuel_result`.
#[repr(C)]
#[derive(Clone, Copy, Debug, PartialEq, Eq, Hash)]
pub struct Numbers {
    /// 0 where it is granted, else the refusal's.
    pub number: u64,
    /// The refusal's; where it is granted 0, the new line's slot (R86), or a word of the slots whose record was TA (R65).
    pub place: u64,
    /// What was asked for; 0 with a refusal.
    pub value: u64,
    /// R103: with refusal 10 the first tick at which the running lines alone come too late; else 0.
    pub tick: u64,
    /// R103: with refusal 10 by how many ticks, a number of 32 bits; else 0.
    pub excess: u64,
}

/// R63, R105: the slot that is none, as a value and as an image's last byte.
pub const NO_SLOT: u64 = 255;

type Bytes = *const u8;
type Lent = *mut u8;
type Stretched = *const [u16; SLOTS];
type Request = *mut [u16; REQUEST_SIZE];
type Counts = *mut [u64; COUNTS];

// SAFETY: these are the header's declarations.
#[rustfmt::skip]
unsafe extern "C" {
    safe fn trimthuel_version() -> u32;
    safe fn trimthuel_lamp(number: u64) -> u8;
    fn trimthuel_empty(table: Lent, table_len: usize) -> Numbers;
    fn trimthuel_ask(table: Bytes, table_len: usize, need: u16, period: u16, stretched: Stretched) -> Numbers;
    fn trimthuel_admit(table: Lent, table_len: usize, need: u16, period: u16, stretched: Stretched) -> Numbers;
    fn trimthuel_step(table: Lent, table_len: usize) -> Numbers;
    fn trimthuel_leave(table: Lent, table_len: usize, number: u64) -> Numbers;
    fn trimthuel_ready(table: Bytes, table_len: usize) -> Numbers;
    fn trimthuel_counts(table: Bytes, table_len: usize, counts: Counts) -> Numbers;
    fn trimthuel_write_card(table: Bytes, table_len: usize, need: u16, period: u16, stretched: Stretched,
                            card: Lent, card_len: usize) -> Numbers;
    fn trimthuel_read_card(card: Bytes, card_len: usize, table: Lent, table_len: usize, request: Request) -> Numbers;
    fn trimthuel_answer(card: Bytes, card_len: usize, out: Lent, out_len: usize) -> Numbers;
    fn trimthuel_rewrite(card: Bytes, card_len: usize, out: Lent, out_len: usize) -> Numbers;
    fn trimthuel_run(card: Bytes, card_len: usize, ticks: u16) -> Numbers;
}

/// R93: the version of the library's boundary. One that is not [`VERSION`](crate::VERSION) does not fit this crate.
#[must_use]
pub fn version() -> u32 {
    trimthuel_version()
}

/// R90: how often the front lamp blinks for the refusals 1 to 15, 1 to 5 times; 0 for any other number, 16 too.
/// [`Refusal::blinks`](crate::Refusal::blinks) asks it.
#[must_use]
pub fn lamp(number: u64) -> u8 {
    trimthuel_lamp(number)
}

/// R85.
pub fn empty(table: &mut [u8]) -> Numbers {
    // SAFETY: one slice, with its length.
    unsafe { trimthuel_empty(table.as_mut_ptr(), table.len()) }
}

/// R86.
#[must_use]
pub fn ask(table: &[u8], need: u16, period: u16, stretched: &[u16; SLOTS]) -> Numbers {
    // SAFETY: a slice with its length, and an array of sixteen numbers.
    unsafe { trimthuel_ask(table.as_ptr(), table.len(), need, period, stretched) }
}

/// R87.
pub fn admit(table: &mut [u8], need: u16, period: u16, stretched: &[u16; SLOTS]) -> Numbers {
    // SAFETY: a slice with its length, borrowed mutably, and an array of sixteen numbers.
    unsafe { trimthuel_admit(table.as_mut_ptr(), table.len(), need, period, stretched) }
}

/// R88.
pub fn step(table: &mut [u8]) -> Numbers {
    // SAFETY: one slice, with its length.
    unsafe { trimthuel_step(table.as_mut_ptr(), table.len()) }
}

/// R102.
pub fn leave(table: &mut [u8], number: u64) -> Numbers {
    // SAFETY: one slice, with its length.
    unsafe { trimthuel_leave(table.as_mut_ptr(), table.len(), number) }
}

/// R89.
#[must_use]
pub fn ready(table: &[u8]) -> Numbers {
    // SAFETY: one slice, with its length.
    unsafe { trimthuel_ready(table.as_ptr(), table.len()) }
}

/// R98.
pub fn counts(table: &[u8], counts: &mut [u64; COUNTS]) -> Numbers {
    // SAFETY: a slice with its length, and an array of eighteen numbers, borrowed mutably.
    unsafe { trimthuel_counts(table.as_ptr(), table.len(), counts) }
}

/// R91.
pub fn write_card(
    table: &[u8],
    need: u16,
    period: u16,
    stretched: &[u16; SLOTS],
    card: &mut [u8],
) -> Numbers {
    let (from, from_len) = (table.as_ptr(), table.len());
    let (to, to_len) = (card.as_mut_ptr(), card.len());
    // SAFETY: two slices with their lengths, the one that is written borrowed mutably, and an array of sixteen numbers.
    unsafe { trimthuel_write_card(from, from_len, need, period, stretched, to, to_len) }
}

/// R92.
pub fn read_card(card: &[u8], table: &mut [u8], request: &mut [u16; REQUEST_SIZE]) -> Numbers {
    let (from, from_len) = (card.as_ptr(), card.len());
    let (to, to_len) = (table.as_mut_ptr(), table.len());
    // SAFETY: two slices with their lengths, and an array of eighteen numbers; what is written is borrowed mutably.
    unsafe { trimthuel_read_card(from, from_len, to, to_len, request) }
}

/// R64.
pub fn answer(card: &[u8], out: &mut [u8]) -> Numbers {
    // SAFETY: two slices with their lengths, the one that is written borrowed mutably.
    unsafe { trimthuel_answer(card.as_ptr(), card.len(), out.as_mut_ptr(), out.len()) }
}

/// R65.
pub fn rewrite(card: &[u8], out: &mut [u8]) -> Numbers {
    // SAFETY: as in `answer`.
    unsafe { trimthuel_rewrite(card.as_ptr(), card.len(), out.as_mut_ptr(), out.len()) }
}

/// R66.
#[must_use]
pub fn run(card: &[u8], ticks: u16) -> Numbers {
    // SAFETY: one slice, with its length.
    unsafe { trimthuel_run(card.as_ptr(), card.len(), ticks) }
}
