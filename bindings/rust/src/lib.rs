//! A greenhouse pump's admission and scheduling core, proved down to the code: safe functions over `libhouse.a`, whose C
//! side is `include/trimthuel.h`. The rules, R1 to R107, are those of docs/RULES.md.
//!
//! ```
//! use trimthuel::{Answer, Pump, Refusal};
//!
//! # fn main() -> Result<(), Refusal> {
//! let mut pump = Pump::new();
//! // 8 ticks in every 16: it runs at once.
//! assert_eq!(pump.admit(&pump.request(8, 16))?, Answer { start: 0, slot: 0 });
//! assert_eq!(pump.step()?, Some(0));
//!
//! // 12 in every 16 more are too many, unless the first line's period is stretched.
//! let bench = pump.request(12, 16);
//! let refusal = pump.ask(&bench).unwrap_err();
//! assert_eq!(refusal.to_string(), "refusal 8 at 0: more than all of the pump is asked for");
//! assert_eq!(refusal.blinks(), 3);
//! assert_eq!(pump.admit(&bench.stretch(0, 32))?.slot, 1);
//!
//! // What each bench has had so far, and the ticks in which none ran.
//! let counts = pump.counts();
//! assert_eq!((counts.had[0], counts.had[1], counts.idle, counts.clock), (1, 0, 0, 1));
//!
//! // The first bench is let go: it stays up to the end of its period, 31 ticks from now, and then its slot is free.
//! assert_eq!(pump.leave(0)?, 31);
//!
//! // The table is 298 bytes, which may be kept while the power is off.
//! let kept = *pump.image();
//! assert_eq!(Pump::from_image(&kept)?, pump);
//! # Ok(())
//! # }
//! ```
//!
//! Nothing is allocated and nothing is kept after a call. Any bytes may be handed in; a refusal leaves every lent byte as
//! it was (R17).

#![no_std]
#![deny(unsafe_code)]
#![warn(missing_docs)]

pub mod image;
#[allow(unsafe_code)]
pub mod numbers;

mod card;
mod counts;
mod pump;
mod refusal;
mod request;
mod result;

pub use card::{answer, rewrite, run, Rewritten};
pub use counts::Counts;
pub use numbers::{lamp, version};
pub use pump::Pump;
pub use refusal::{Late, Refusal};
pub use request::{Answer, Request};

/// R93: of the boundary that this crate declares; the library's own is [`version()`].
pub const VERSION: u32 = 6;

/// R81: of the layout of an image, its first byte. An image of version 1, which had no counts, of version 2, which had no line
/// that leaves, or of version 3, which had no last slot, is refused with 11 at 0.
pub const IMAGE_VERSION: u8 = 4;

/// R2: slots of a table.
pub const SLOTS: usize = 16;

/// R81: bytes of an image.
pub const TABLE_SIZE: usize = 298;

/// R95: counts of a table: one for each slot, then the idle count, then the departed count.
pub const COUNTS: usize = 18;

/// R6: numbers of a request: sixteen stretched periods, then need and period.
pub const REQUEST_SIZE: usize = 18;

/// R55: bytes of the longest card.
pub const CARD_MAX: usize = 208;

/// R61: every answer line fits so many bytes, its newline included.
pub const LINE_MAX: usize = 72;
