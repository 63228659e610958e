//! What happens in a drawn history, one turn after the other.

mod meanwhile;

use super::damage;
use super::drawn::{Done, Drawn, LONGEST_LENT};
use super::operation::Operation;
use crate::boundary::Act;
use crate::card;
use crate::draw;
use crate::draw_counts;
use crate::draw_last;
use crate::draw_leaving;
use crate::image;
use crate::orders;
use crate::spoil;
use crate::types::{Content, Request, LAST_ASK, LONGEST_CARD, SLOTS};

/// The longest period up to whose end a line that was let go is followed.
const FOLLOWED: u64 = 60;

impl Drawn<'_> {
    /// How a history comes to its first table.
    pub fn open(&mut self) -> Done {
        match self.random.below(16) {
            0..=8 => self.open_empty(),
            9..=12 => self.open_question(),
            13 | 14 => self.read_card(),
            _ => {
                let bytes = damage::no_image(self.random);
                self.lay(&bytes)
            }
        }
    }

    /// Up to four lines are admitted, the last for all the load that is left, and the pump runs for a while.
    fn open_empty(&mut self) -> Done {
        self.call(Act::Empty)?;
        for _ in 0..2 + self.random.below(2) {
            let part = self.loads.part(self.random, 1, &self.table());
            self.admit(&part)?;
        }
        let rest = self.loads.rest(self.random, &self.table());
        self.admit(&rest)?;
        let steps = self.random.below(self.loads.parts * self.loads.span);
        self.step(steps)
    }

    /// A table that mostly passes all refusals, with its request, and any last slot; R99: of half of them some lines leave.
    fn open_question(&mut self) -> Done {
        let (mut table, request) = match self.random.below(64) {
            0 => draw::wide(self.random),
            1..=16 => draw_leaving::near_full(self.random),
            17..=32 => draw_leaving::hurried(self.random),
            _ => draw::near_full(self.random),
        };
        draw_counts::fitting(self.random, &mut table);
        draw_last::any(self.random, &mut table);
        self.loads.go_by(&table, &request);
        self.lay(&image::bytes(&table))?;
        self.ask(&request)
    }

    pub fn turn(&mut self) -> Done {
        match self.random.below(73) {
            0..=22 => {
                let request = self.draw_request();
                self.ask(&request)
            }
            23 | 24 => self.admit_drawn(),
            25..=30 => {
                let times = 1 + self.random.below(24);
                self.step(times)
            }
            31 => self.call(Act::Ready).map(|_| ()),
            32 => self.call(Act::Counts).map(|_| ()),
            33..=35 => self.write_card(),
            36..=38 => self.there_and_back(),
            39..=42 => self.cards(),
            43 => self.read_card(),
            44 => self.open_question(),
            45..=52 => self.damaged_table(),
            53 | 54 => self.counted_table(),
            55..=59 => self.broken_image(),
            60 | 61 => self.jump(),
            62 => {
                let number = self.random.below(20);
                self.call(Act::Lamp(number)).map(|_| ())
            }
            63 => self.call(Act::Version).map(|_| ()),
            64 | 65 => self.late_table(),
            66..=68 => self.tied_table(),
            _ => self.leave(),
        }
    }

    fn draw_request(&mut self) -> Request {
        self.loads.request(self.random, &self.table())
    }

    fn ask(&mut self, request: &Request) -> Done {
        let line = self.request(request)?;
        self.call(Act::Ask(line)).map(|_| ())
    }

    fn admit(&mut self, request: &Request) -> Done {
        let line = self.request(request)?;
        self.call(Act::Admit(line)).map(|_| ())
    }

    /// R100: one new line in four is let go again, while it waits or in its first period.
    fn admit_drawn(&mut self) -> Done {
        let request = self.draw_request();
        let line = self.request(&request)?;
        let told = self.call(Act::Admit(line))?;
        if told.number == 0 && self.random.below(4) == 0 {
            let times = self.random.below(3);
            self.step(times)?;
            self.call(Act::Leave(told.place))?;
        }
        Ok(())
    }

    fn step(&mut self, times: u64) -> Done {
        self.operate(Operation::Steps(times)).map(|_| ())
    }

    /// R100: the number of a slot that holds a line, often one that waits; of any slot; or of none, up to 2^64 − 1.
    fn draw_number(&mut self) -> u64 {
        let table = self.table();
        let any = self.random.below(SLOTS as u64);
        let used = |content: &Content| *content != Content::Nothing;
        let line = draw::slot(self.random, &table, used) as u64;
        let waiting = table.lowest(Content::is_waiting);
        match self.random.below(16) {
            0..=6 => waiting.map_or(line, |slot| slot as u64),
            7..=10 => line,
            11 | 12 => any,
            13 => SLOTS as u64 + any,
            14 => line | 1 << (4 + self.random.below(60)),
            _ => u64::MAX - self.random.below(3),
        }
    }

    /// R100: a line is let go, if there is one; then the same number is named again, or the pump runs up to where the slot holds
    /// nothing, and a new line is admitted there.
    fn leave(&mut self) -> Done {
        let number = self.draw_number();
        let told = self.call(Act::Leave(number))?;
        match self.random.below(4) {
            0 => self.call(Act::Leave(number)).map(|_| ()),
            1 | 2 if told.number == 0 && told.value <= FOLLOWED => {
                self.step(told.value)?;
                let rest = self.loads.rest(self.random, &self.table());
                self.admit(&rest)
            }
            _ => Ok(()),
        }
    }

    /// What is lent for something of a length: exactly so much, a byte less, any length, or more than enough.
    fn lend_about(&mut self, exact: usize) -> Done {
        let length = match self.random.below(4) {
            0 => exact.saturating_sub(1),
            1 => exact,
            2 => self.random.below(LONGEST_LENT as u64 + 1) as usize,
            _ => LONGEST_LENT,
        };
        self.lend(length)
    }

    /// R91: the table's card.
    fn write_card(&mut self) -> Done {
        let request = self.draw_request();
        let line = self.request(&request)?;
        self.lend_about(card::bytes(&self.table(), &request).len())?;
        self.call(Act::WriteCard(line)).map(|_| ())
    }

    /// R71, R92: the table's card is written and read again; where a line waits there is none, and the last one is read.
    fn there_and_back(&mut self) -> Done {
        let request = self.draw_request();
        let line = self.request(&request)?;
        self.lend(LONGEST_CARD)?;
        let told = self.call(Act::WriteCard(line))?;
        if told.number == 0 {
            let written = self.beside.desk.out.part()[..told.value as usize].to_vec();
            self.operate(Operation::Card(written))?;
        }
        self.call(Act::ReadCard).map(|_| ())
    }

    /// A card of any kind; R58: a third of them have lines of the old order.
    fn draw_card(&mut self) -> Vec<u8> {
        let card = spoil::mixed_card(self.random);
        match self.random.below(3) {
            0 => orders::drawn(self.random, &card),
            _ => card,
        }
    }

    /// R64 to R66: a card is answered, written anew and run.
    fn cards(&mut self) -> Done {
        let card = self.draw_card();
        let (line, length) = (card::answer(&card).len(), card.len());
        let ticks = self.random.small(100);
        self.operate(Operation::Card(card))?;
        self.lend_about(line)?;
        self.call(Act::Answer)?;
        self.lend_about(length)?;
        self.call(Act::Rewrite)?;
        self.call(Act::Run(ticks)).map(|_| ())
    }

    /// R92: a card's table takes the place of the image, and its request is asked; of a broken card that is zeros.
    fn read_card(&mut self) -> Done {
        let card = self.draw_card();
        let request = card::read(&card).request;
        self.operate(Operation::Card(card))?;
        self.call(Act::ReadCard)?;
        self.loads.go_by(&self.table(), &request);
        self.ask(&request)
    }

    /// R7: the clock jumps, to where a run comes to the last ask or anywhere before, but not before what is counted (R96); the lines
    /// and counts stay as they are.
    fn jump(&mut self) -> Done {
        let anywhere = self.random.wide(LAST_ASK + 1);
        let clock = match self.random.below(4) {
            0 => LAST_ASK - self.random.below(200),
            1 => self.random.below(1_000),
            _ => anywhere,
        };
        let counted = self.table().counts.sum();
        let clock = u64::try_from(counted).map_or(clock, |counted| clock.max(counted));
        self.operate(Operation::Clock(clock)).map(|_| ())
    }
}
