//! The pump, which owns its table.

use crate::numbers::NO_SLOT;
use crate::{
    image, Answer, Counts, Refusal, Request, IMAGE_VERSION, REQUEST_SIZE, SLOTS, TABLE_SIZE,
};

/// A pump: the image of its table (R81), which always reads.
#[derive(Clone, Debug, PartialEq, Eq, Hash)]
pub struct Pump {
    image: [u8; TABLE_SIZE],
}

impl Pump {
    /// R4: the empty table, also in a `static`: zeros between the version and a last slot that is none. [`image::empty`] writes
    /// the same bytes.
    #[must_use]
    pub const fn new() -> Pump {
        let mut image = [0; TABLE_SIZE];
        image[0] = IMAGE_VERSION;
        image[TABLE_SIZE - 1] = NO_SLOT as u8;
        Pump { image }
    }

    /// R83: the pump that was kept as an image.
    ///
    /// # Errors
    /// Refusal 11, at the lowest offset at which the image is broken.
    pub fn from_image(bytes: &[u8]) -> Result<Pump, Refusal> {
        // R89: to answer the ready word is to read the image.
        image::ready(bytes)?;
        let mut pump = Pump::new();
        pump.image.copy_from_slice(bytes);
        Ok(pump)
    }

    /// R92: the table and the request of a card.
    ///
    /// # Errors
    /// Refusal 11, of the reader.
    pub fn from_card(card: &[u8]) -> Result<(Pump, Request), Refusal> {
        let mut pump = Pump::new();
        let mut numbers = [0; REQUEST_SIZE];
        image::read_card(card, &mut pump.image, &mut numbers)?;
        Ok((pump, Request::from_numbers(numbers)))
    }

    /// The image, to be kept while the power is off.
    #[must_use]
    pub fn image(&self) -> &[u8; TABLE_SIZE] {
        &self.image
    }

    /// A request for a new line with which every running line keeps its period, as one that leaves has to (R25);
    /// [`Request::stretch`] stretches others.
    #[must_use]
    pub fn request(&self, need: u16, period: u16) -> Request {
        (0..SLOTS).fold(Request::new(need, period), |request, slot| {
            request.stretch(slot, self.period(slot))
        })
    }

    /// R81: the period of the line in a slot, 0 where it holds nothing.
    fn period(&self, slot: usize) -> u16 {
        let at = 9 + 9 * slot + 3;
        u16::from_le_bytes([self.image[at], self.image[at + 1]])
    }

    /// R41: when the new line could start, and in which slot.
    ///
    /// # Errors
    /// The first of the refusals 1 to 10 that holds; 10 says by how much it is late.
    pub fn ask(&self, request: &Request) -> Result<Answer, Refusal> {
        image::ask(&self.image, request)
    }

    /// R42: the same, and the new line is admitted.
    ///
    /// # Errors
    /// As [`Pump::ask`].
    pub fn admit(&mut self, request: &Request) -> Result<Answer, Refusal> {
        image::admit(&mut self.image, request)
    }

    /// R48: one tick; answers the slot that got it. It goes to an owed line whose period ends first; where several end so, to the
    /// one that got the last tick, whose valve stays open, else to the lowest slot (R44).
    ///
    /// # Errors
    /// Refusal 15, 4 or 14; on a pump that began as [`Pump::new`] and was never read from bytes, 15 only (R74).
    pub fn step(&mut self) -> Result<Option<usize>, Refusal> {
        image::step(&mut self.image)
    }

    /// R100: lets the line of a slot go. A running line stays up to the end of its period, with what that still owes it; a
    /// waiting one is removed at once. Answers in how many ticks the slot holds nothing.
    ///
    /// # Errors
    /// Refusal 4, or 16 at the slot, where there is no such slot, or it holds nothing or a line that leaves already.
    pub fn leave(&mut self, slot: usize) -> Result<u64, Refusal> {
        image::leave(&mut self.image, slot as u64)
    }

    /// R49: bit k is 1 where slot k is still owed ticks.
    #[must_use]
    pub fn ready(&self) -> u16 {
        image::ready(&self.image).expect("a pump's image reads (R82)")
    }

    /// R98: what each bench has had.
    #[must_use]
    pub fn counts(&self) -> Counts {
        image::counts(&self.image).expect("a pump's image reads (R82)")
    }

    /// R91: writes the card of the table and a request to the start of `card`, and answers its length.
    ///
    /// # Errors
    /// Refusal 3 where a line waits, or 13 if `card` is too short.
    pub fn write_card(&self, request: &Request, card: &mut [u8]) -> Result<usize, Refusal> {
        image::write_card(&self.image, request, card)
    }
}

impl Default for Pump {
    fn default() -> Pump {
        Pump::new()
    }
}
