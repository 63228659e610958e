//! The requests of a history, near full load.

use crate::draw;
use crate::random::Random;
use crate::rules;
use crate::types::{Content, Request, Table, SLOTS};

/// How many more requests are drawn for one that starts later than the clock.
const LATER_TRIALS: usize = 10;

/// Loads are drawn in whole parts; all periods divide the base, so that they can be stretched, and the frame is short.
#[derive(Clone, Copy)]
pub struct Loads {
    pub parts: u64,
    pub span: u64,
    base: u64,
}

impl Loads {
    pub fn draw(random: &mut Random) -> Loads {
        let parts = [4, 5, 6, 8][random.below(4) as usize];
        let span = [4, 6, 12, 24][random.below(4) as usize];
        let base = 60 * parts * span;
        Loads { parts, span, base }
    }

    /// The base of a table that was not come to from the empty one is the frame of its request, where that has one.
    pub fn go_by(&mut self, table: &Table, request: &Request) {
        self.base = rules::frame(table, request).unwrap_or(self.base);
    }

    /// A new line for all the load that is left, and no line stretched.
    pub fn rest(&self, random: &mut Random, table: &Table) -> Request {
        draw::rest(random, self.base, 1, table)
    }

    /// A new line whose load is a number of parts, as far as the load that is left allows.
    pub fn part(&self, random: &mut Random, times: u64, table: &Table) -> Request {
        let mut request = draw::stretched(random, self.base, times, table);
        let length: u64 = draw::divisor(self.span, 1 + random.below(self.span)).into();
        let wanted = length * (1 + random.below(self.parts - 1));
        let period = self.parts * length;
        let left = draw::room(self.base, table, &request);
        let full = left / (self.base / period).max(1);
        request.need = wanted.min(full).max(1) as u16;
        request.period = period as u16;
        request
    }

    /// A new line for all the load that is left; of a few requests the first whose start is later than the clock, if any.
    fn later(&self, random: &mut Random, table: &Table) -> Request {
        let draw = |random: &mut Random| {
            let times = 2 + random.below(5);
            draw::rest(random, self.base, times, table)
        };
        let mut request = draw(random);
        for _ in 0..LATER_TRIALS {
            let start = rules::ask_before_last_end(table, &request);
            if start.is_ok_and(|start| start > table.clock) {
                break;
            }
            request = draw(random);
        }
        request
    }

    /// A request of any of these kinds; R6: half of them have any entries for slots that hold no running line.
    pub fn request(&self, random: &mut Random, table: &Table) -> Request {
        let times = 2 + random.below(5);
        let mut request = match random.below(16) {
            0..=9 => self.later(random, table),
            10..=12 => self.part(random, times, table),
            _ => {
                let mut request = draw::stretched(random, self.base, times, table);
                let left = draw::room(self.base, table, &request);
                draw::newcomer(random, self.base, left, &mut request);
                request
            }
        };
        let any_entries = random.below(2) == 0;
        let others = (0..SLOTS).filter(|slot| !matches!(table.slots[*slot], Content::Running(_)));
        for slot in others.filter(|_| any_entries) {
            request.stretched[slot] = random.small(65_536);
        }
        request
    }
}
