//! Histories drawn while they are done: what is drawn next depends on the table that was come to.

use super::beside::{Beside, Compared, Difference, Doer};
use super::damage;
use super::laid;
use super::operation::Operation;
use super::requests::Loads;
use super::tally::Tally;
use crate::boundary::{Act, NewLine, Told};
use crate::card;
use crate::draw;
use crate::draw_last;
use crate::draw_leaving;
use crate::image;
use crate::orders;
use crate::random::Random;
use crate::spoil;
use crate::types::{Content, Request, Table, Wait, EMPTY, LONGEST_CARD, SLOTS};

/// The longest buffer lent for a card, and the longest one lent for an image.
pub const LONGEST_LENT: usize = LONGEST_CARD + 16;
const LONGEST_IMAGE_LENT: usize = image::LENGTH + 17;

/// The first operation that differs ends a history.
pub type Done = Result<(), Box<Difference>>;

pub struct Drawn<'a> {
    pub random: &'a mut Random,
    tally: &'a mut Tally,
    pub beside: Beside,
    pub loads: Loads,
    /// What was done so far.
    pub operations: Vec<Operation>,
}

impl<'a> Drawn<'a> {
    pub fn new(library: Doer, random: &'a mut Random, tally: &'a mut Tally) -> Drawn<'a> {
        let loads = Loads::draw(random);
        tally.histories += 1;
        Drawn {
            random,
            tally,
            beside: Beside::new(library),
            loads,
            operations: Vec::new(),
        }
    }

    /// What every run begins with.
    pub fn first(&mut self) -> Done {
        self.numbers()?;
        self.leave_numbers()?;
        self.last_slots()?;
        self.lengths()?;
        self.broken_cards()
    }

    /// A whole history: a table is come to, and then it is asked, admitted to, stepped, left, damaged.
    pub fn history(&mut self) -> Done {
        self.lend(LONGEST_CARD)?;
        self.open()?;
        for _ in 0..12 + self.random.below(36) {
            self.turn()?;
        }
        Ok(())
    }

    /// R90, R93: the functions that are lent nothing: small numbers with any one of the 64 bits changed.
    fn numbers(&mut self) -> Done {
        self.call(Act::Version)?;
        for number in 0..32 {
            for bit in 0..64 {
                self.call(Act::Lamp(number ^ 1 << bit))?;
            }
        }
        Ok(())
    }

    /// R100, R102: the slots' numbers with any one of the 64 bits changed, on a table with lines that run, leave and wait.
    fn leave_numbers(&mut self) -> Done {
        let (mut table, _) = draw_leaving::near_full(self.random);
        if let Some(slot) = table.lowest_empty() {
            let (need, period, wait) = (1, 4, 2);
            table.slots[slot] = Content::Waiting(Wait { need, period, wait });
        }
        let image = image::bytes(&table);
        for number in 0..SLOTS as u64 {
            for bit in 0..64 {
                self.lay(&image)?;
                self.call(Act::Leave(number ^ 1 << bit))?;
            }
        }
        Ok(())
    }

    /// R105: every last slot, on a table of which most lines end together.
    fn last_slots(&mut self) -> Done {
        let (table, request) = draw_last::tied(self.random);
        let line = self.request(&request)?;
        let used = table.running().next().map_or(0, |(slot, _)| slot as u64);
        for last in 0..=u8::MAX {
            let image = image::bytes(&Table { last, ..table });
            for act in [Act::Admit(line), Act::Leave(used), Act::Step] {
                self.lay(&image)?;
                self.call(act)?;
            }
        }
        Ok(())
    }

    /// Every length of what is lent to be written into and of an image, for one table and its card in the old order (R58).
    fn lengths(&mut self) -> Done {
        let (table, request) = draw::near_full(self.random);
        let image = image::bytes(&table);
        self.lay(&image)?;
        let used = table.running().next().map_or(0, |(slot, _)| slot as u64);
        let line = self.request(&request)?;
        let card = orders::old(&card::bytes(&table, &request));
        self.operate(Operation::Card(card))?;
        for length in 0..=LONGEST_LENT {
            for act in [Act::Answer, Act::Rewrite, Act::WriteCard(line)] {
                self.lend(length)?;
                self.call(act)?;
            }
        }
        for length in 0..=LONGEST_IMAGE_LENT {
            let resized = damage::resized(self.random, &image, length);
            for act in on_images(line, used) {
                self.lay(&resized)?;
                self.call(act)?;
            }
        }
        Ok(())
    }

    /// R57, R58: every broken card of the stored set, among them the longest card cut to every length.
    fn broken_cards(&mut self) -> Done {
        for card in spoil::named().into_iter().chain(spoil::leaving()) {
            self.operate(Operation::Card(card))?;
            for act in [Act::Answer, Act::Rewrite, Act::Run(1), Act::ReadCard] {
                self.call(act)?;
            }
        }
        Ok(())
    }

    pub fn operate(&mut self, operation: Operation) -> Compared {
        let before = self.image();
        let compared = self.beside.operate(&operation);
        if let Ok(all) = &compared {
            self.tally
                .count(&operation, all, &before, &self.beside.desk);
        }
        self.operations.push(operation);
        compared
    }

    pub fn call(&mut self, act: Act) -> Result<Told, Box<Difference>> {
        let all = self.operate(act.into())?;
        Ok(all[0])
    }

    pub fn lend(&mut self, length: usize) -> Done {
        let fill = self.random.below(256) as u8;
        self.operate(Operation::Lend(length, fill)).map(|_| ())
    }

    pub fn image(&self) -> Vec<u8> {
        self.beside.desk.image.part().to_vec()
    }

    /// The table of the image; where that is broken, the empty one, for which requests can be drawn too.
    pub fn table(&self) -> Table {
        image::read(self.beside.desk.image.part()).unwrap_or(EMPTY)
    }

    pub fn lay(&mut self, wanted: &[u8]) -> Done {
        for operation in laid::image(&self.image(), wanted) {
            self.operate(operation)?;
        }
        Ok(())
    }

    /// R6: lays the stretched periods out; the rest of a request is handed to the call.
    pub fn request(&mut self, request: &Request) -> Result<NewLine, Box<Difference>> {
        if self.beside.desk.stretched.part() != request.stretched {
            self.operate(Operation::Stretched(request.stretched))?;
        }
        Ok((*request).into())
    }
}

/// R85 to R92, R98, R102: the functions that are lent an image or a buffer for one.
pub fn on_images(line: NewLine, number: u64) -> [Act; 9] {
    [
        Act::Ask(line),
        Act::Admit(line),
        Act::Step,
        Act::Leave(number),
        Act::Ready,
        Act::Counts,
        Act::WriteCard(line),
        Act::ReadCard,
        Act::Empty,
    ]
}
