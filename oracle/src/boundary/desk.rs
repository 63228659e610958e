//! Everything that a call over the boundary is handed or lent, with guards around it.

use super::act::NewLine;
use super::images::NUMBERS;
use crate::image;
use crate::types::{Request, COUNTS, EMPTY, LONGEST_CARD, SLOTS};

/// How many bytes or numbers stand on each side of what is lent.
pub const GUARD: usize = 16;

/// What is lent for a call, between two guards that no call may change.
#[derive(Clone, Debug, PartialEq, Eq)]
pub struct Lent<T> {
    all: Vec<T>,
}

impl<T: Copy> Lent<T> {
    pub fn new(part: &[T], guard: T) -> Lent<T> {
        let guard = [guard; GUARD];
        let all = [&guard, part, &guard].concat();
        Lent { all }
    }

    /// What is lent, and its guards.
    pub fn all(&self) -> &[T] {
        &self.all
    }

    /// Another part between the same guards.
    pub fn replace(&mut self, part: &[T]) {
        *self = Lent::new(part, self.all[0]);
    }

    /// Other guards around the same part.
    pub fn guard(&mut self, guard: T) {
        let end = self.all.len() - GUARD;
        self.all[..GUARD].fill(guard);
        self.all[end..].fill(guard);
    }

    pub fn part(&self) -> &[T] {
        &self.all[GUARD..self.all.len() - GUARD]
    }

    pub fn part_mut(&mut self) -> &mut [T] {
        let end = self.all.len() - GUARD;
        &mut self.all[GUARD..end]
    }

    /// What is lent, where that is `N` numbers.
    pub fn array<const N: usize>(&self) -> &[T; N] {
        self.part().try_into().expect("so many are lent")
    }

    pub fn array_mut<const N: usize>(&mut self) -> &mut [T; N] {
        self.part_mut().try_into().expect("so many are lent")
    }
}

/// The buffers of a call. Two desks are equal when every byte and number of them is, the guards' too.
#[derive(Clone, Debug, PartialEq, Eq)]
pub struct Desk {
    /// The image that the operations on images read and write, or what is lent for one.
    pub image: Lent<u8>,
    /// The card that is read.
    pub card: Lent<u8>,
    /// Where a card or a line is written.
    pub out: Lent<u8>,
    /// R6: the sixteen stretched periods, which are read.
    pub stretched: Lent<u16>,
    /// R92: where a card's request is written, eighteen numbers.
    pub numbers: Lent<u16>,
    /// R98: where a table's counts are written, eighteen numbers.
    pub counts: Lent<u64>,
}

impl Desk {
    /// The empty table, no card, a request of zeros, and a buffer that every card and every line fits.
    pub fn new() -> Desk {
        Desk {
            image: Lent::new(&image::bytes(&EMPTY), 0),
            card: Lent::new(&[], 0),
            out: Lent::new(&[0; LONGEST_CARD], 0),
            stretched: Lent::new(&[0; SLOTS], 0),
            numbers: Lent::new(&[0; NUMBERS], 0),
            counts: Lent::new(&[0; COUNTS], 0),
        }
    }

    /// What is lent to be written into is of this length, and full of this byte, as are all guards.
    pub fn lend(&mut self, length: usize, fill: u8) {
        let (wide, widest) = (u16::from_le_bytes([fill; 2]), u64::from_le_bytes([fill; 8]));
        self.image.guard(fill);
        self.card.guard(fill);
        self.out = Lent::new(&vec![fill; length], fill);
        self.stretched.guard(wide);
        self.numbers = Lent::new(&[wide; NUMBERS], wide);
        self.counts = Lent::new(&[widest; COUNTS], widest);
    }

    /// The byte of all guards.
    pub fn fill(&self) -> u8 {
        self.out.all[0]
    }

    /// R6: the request of a new line with the stretched periods that lie here.
    pub fn request(&self, line: &NewLine) -> Request {
        Request {
            stretched: *self.stretched.array(),
            need: line.need,
            period: line.period,
        }
    }
}
