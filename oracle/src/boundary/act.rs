//! The calls of the boundary, and what should happen in each.

use super::desk::Desk;
use super::{cards, images};
use crate::rules;
use crate::types::{by_how_much, Refusal, Request};
use std::fmt;

/// R93: the version of the boundary.
const VERSION: u64 = 6;

/// R63: the slot of a result that is none.
pub const NO_SLOT: u64 = 255;

/// R6: the need and the period of a new line. The stretched periods of the request stand on the desk.
#[derive(Clone, Copy, Debug, PartialEq, Eq)]
pub struct NewLine {
    pub need: u16,
    pub period: u16,
}

impl From<Request> for NewLine {
    fn from(request: Request) -> NewLine {
        NewLine {
            need: request.need,
            period: request.period,
        }
    }
}

/// A call, one for each function of the boundary; its buffers stand on a desk.
#[derive(Clone, Copy, Debug, PartialEq, Eq)]
pub enum Act {
    Answer,
    Rewrite,
    Run(u16),
    Empty,
    Ask(NewLine),
    Admit(NewLine),
    Step,
    Leave(u64),
    Ready,
    Counts,
    Lamp(u64),
    WriteCard(NewLine),
    ReadCard,
    Version,
}

impl Act {
    /// The word for it.
    pub fn name(&self) -> &'static str {
        match self {
            Act::Answer => "answer",
            Act::Rewrite => "rewrite",
            Act::Run(_) => "run",
            Act::Empty => "empty",
            Act::Ask(_) => "ask",
            Act::Admit(_) => "admit",
            Act::Step => "step",
            Act::Leave(_) => "leave",
            Act::Ready => "ready",
            Act::Counts => "counts",
            Act::Lamp(_) => "lamp",
            Act::WriteCard(_) => "write_card",
            Act::ReadCard => "read_card",
            Act::Version => "version",
        }
    }

    /// The act of these words: its name and its numbers.
    pub fn from_words(words: &[&str]) -> Option<Act> {
        let line = |need: &str, period: &str| {
            let (need, period) = (need.parse().ok()?, period.parse().ok()?);
            Some(NewLine { need, period })
        };
        Some(match words {
            ["answer"] => Act::Answer,
            ["rewrite"] => Act::Rewrite,
            ["run", ticks] => Act::Run(ticks.parse().ok()?),
            ["empty"] => Act::Empty,
            ["ask", need, period] => Act::Ask(line(need, period)?),
            ["admit", need, period] => Act::Admit(line(need, period)?),
            ["step"] => Act::Step,
            ["leave", number] => Act::Leave(number.parse().ok()?),
            ["ready"] => Act::Ready,
            ["counts"] => Act::Counts,
            ["lamp", number] => Act::Lamp(number.parse().ok()?),
            ["write_card", need, period] => Act::WriteCard(line(need, period)?),
            ["read_card"] => Act::ReadCard,
            ["version"] => Act::Version,
            _ => return None,
        })
    }
}

impl fmt::Display for Act {
    fn fmt(&self, f: &mut fmt::Formatter<'_>) -> fmt::Result {
        let name = self.name();
        match self {
            Act::Run(ticks) => write!(f, "{name} {ticks}"),
            Act::Leave(number) | Act::Lamp(number) => write!(f, "{name} {number}"),
            Act::Ask(line) | Act::Admit(line) | Act::WriteCard(line) => {
                write!(f, "{name} {} {}", line.need, line.period)
            }
            _ => f.write_str(name),
        }
    }
}

/// R63: what a call answers.
#[derive(Clone, Copy, Debug, PartialEq, Eq)]
pub struct Told {
    pub number: u64,
    pub place: u64,
    pub value: u64,
    pub tick: u64,
    pub excess: u64,
}

impl Told {
    /// R63: granted, with no place.
    pub fn value(value: u64) -> Told {
        Told::placed(value, 0)
    }

    /// R65, R86: granted, with a place.
    pub fn placed(value: u64, place: usize) -> Told {
        Told {
            number: 0,
            place: place as u64,
            value,
            tick: 0,
            excess: 0,
        }
    }

    /// R84, R59, R62: granted, the length of what was written.
    pub fn length(length: usize) -> Told {
        Told::value(length as u64)
    }

    /// R88: granted, the slot that ran or none.
    pub fn slot(slot: Option<usize>) -> Told {
        Told::value(slot.map_or(NO_SLOT, |slot| slot as u64))
    }

    /// R103: no refusal but 10 says by how much it is late.
    pub fn refused(number: impl Into<u64>, place: u64) -> Told {
        Told {
            number: number.into(),
            place,
            value: 0,
            tick: 0,
            excess: 0,
        }
    }

    /// R61: a refusal in words.
    pub fn refusal(&self) -> String {
        let more = by_how_much(self.tick, self.excess);
        format!("refused {} {}{more}", self.number, self.place)
    }
}

impl fmt::Display for Told {
    fn fmt(&self, f: &mut fmt::Formatter<'_>) -> fmt::Result {
        let Told {
            number,
            place,
            value,
            tick,
            excess,
        } = self;
        write!(f, "number {number} place {place} value {value}")?;
        write!(f, " tick {tick} excess {excess}")
    }
}

impl From<Refusal> for Told {
    fn from(refusal: Refusal) -> Told {
        Told {
            tick: refusal.tick,
            excess: refusal.excess,
            ..Told::refused(refusal.number, refusal.place)
        }
    }
}

/// What should be told of an act, and left on its desk.
pub fn should(act: &Act, desk: &mut Desk) -> Told {
    attempt(act, desk).unwrap_or_else(Told::from)
}

fn attempt(act: &Act, desk: &mut Desk) -> Result<Told, Refusal> {
    let placed = |(start, slot)| Told::placed(start, slot);
    match act {
        Act::Answer => cards::answer(desk.card.part(), desk.out.part_mut()).map(Told::length),
        Act::Rewrite => {
            let (length, turned) = cards::rewrite(desk.card.part(), desk.out.part_mut())?;
            Ok(Told::placed(length as u64, turned.into()))
        }
        Act::Run(ticks) => cards::run(desk.card.part(), *ticks).map(Told::value),
        Act::Empty => images::empty(desk.image.part_mut()).map(Told::length),
        Act::Ask(line) => images::ask(desk.image.part(), &desk.request(line)).map(placed),
        Act::Admit(line) => {
            let request = desk.request(line);
            images::admit(desk.image.part_mut(), &request).map(placed)
        }
        Act::Step => images::step(desk.image.part_mut()).map(Told::slot),
        Act::Leave(number) => images::leave(desk.image.part_mut(), *number).map(Told::value),
        Act::Ready => images::ready(desk.image.part()).map(|word| Told::value(word.into())),
        Act::Counts => {
            let (image, lent) = (desk.image.part(), desk.counts.array_mut());
            images::counts(image, lent).map(Told::value)
        }
        Act::Lamp(number) => Ok(Told::value(rules::lamp(*number))),
        Act::WriteCard(line) => {
            let request = desk.request(line);
            let (image, out) = (desk.image.part(), desk.out.part_mut());
            images::write_card(image, &request, out).map(Told::length)
        }
        Act::ReadCard => {
            let (card, image) = (desk.card.part(), desk.image.part_mut());
            images::read_card(card, image, desk.numbers.array_mut()).map(Told::length)
        }
        Act::Version => Ok(Told::value(VERSION)),
    }
}

#[cfg(test)]
mod tests {
    use super::*;
    use crate::boundary::desk::Lent;
    use crate::card;
    use crate::cases::{self, CARD_A};
    use crate::image;
    use crate::orders;
    use crate::types::{Content, Follows, Table, Wait, EMPTY, LAST_TICK, SLOTS, ZEROS};

    const FILL: u8 = 7;
    const GUARD: u8 = 9;

    /// A desk with an image and card A on it, and `out` bytes lent for what is written.
    fn desk(image: &[u8], out: usize) -> Desk {
        Desk {
            image: Lent::new(image, GUARD),
            card: Lent::new(&CARD_A, GUARD),
            out: Lent::new(&vec![FILL; out], GUARD),
            stretched: Lent::new(&case_a().1.stretched, GUARD.into()),
            numbers: Lent::new(&[FILL.into(); 18], GUARD.into()),
            counts: Lent::new(&[FILL.into(); 18], GUARD.into()),
        }
    }

    fn on_table(table: &Table) -> Desk {
        desk(&image::bytes(table), 208)
    }

    fn case_a() -> (Table, Request) {
        let a = &cases::all()[0];
        (a.table, a.request)
    }

    /// The act is told this, and leaves its desk as it was.
    fn changes_nothing(act: Act, desk: &Desk, told: Told) {
        let mut after = desk.clone();
        assert_eq!(should(&act, &mut after), told, "{act:?}");
        assert_eq!(after, *desk, "{act:?}");
    }

    fn refused(number: u64, place: u64) -> Told {
        Told::refused(number, place)
    }

    #[test]
    fn numbers_alone() {
        let desk = on_table(&EMPTY);
        changes_nothing(Act::Version, &desk, Told::value(6));
        for (number, blinks) in [(0, 0), (3, 1), (4, 2), (15, 5), (16, 0), (1 << 32 | 1, 0)] {
            changes_nothing(Act::Lamp(number), &desk, Told::value(blinks));
        }
    }

    #[test]
    fn the_empty_table_in_a_lent_buffer() {
        changes_nothing(Act::Empty, &desk(&[FILL; 297], 0), refused(13, 0));
        let mut lent = desk(&[FILL; 300], 0);
        assert_eq!(should(&Act::Empty, &mut lent), Told::value(298));
        let wanted = [image::bytes(&EMPTY), vec![FILL; 2]].concat();
        assert_eq!(lent, desk(&wanted, 0));
    }

    #[test]
    fn case_a_asked_admitted_and_stepped() {
        let (table, request) = case_a();
        let mut now = on_table(&table);
        let told = Told::placed(13, 2);
        changes_nothing(Act::Ask(request.into()), &now, told);
        changes_nothing(Act::Ready, &now, Told::value(2));
        assert_eq!(should(&Act::Admit(request.into()), &mut now), told);
        let (_, admitted) = rules::admit(&table, &request).expect("case A");
        assert_eq!(now, on_table(&admitted));
        changes_nothing(Act::Ask(request.into()), &now, refused(3, 2));
        changes_nothing(Act::WriteCard(request.into()), &now, refused(3, 2));
        // The second line is owed eight ticks, and slot 0 is owed none before its period ends.
        for _ in 0..8 {
            assert_eq!(should(&Act::Step, &mut now), Told::value(1));
        }
        changes_nothing(Act::Ready, &now, Told::value(0b110));
        // R98: the card's table came with every count 0, so that these do not add up to the clock.
        assert_eq!(should(&Act::Counts, &mut now), Told::value(16));
        let mut counts = [0; 18];
        counts[1] = 8;
        assert_eq!(now.counts.part(), counts);
    }

    /// R103: ask, admit and run say by how much it is late; the line of the card says so too.
    #[test]
    fn case_j_is_late() {
        let j = cases::all().into_iter().find(|case| case.name == "J");
        let j = j.expect("case J");
        let mut now = on_table(&j.table);
        now.stretched = Lent::new(&j.request.stretched, GUARD.into());
        now.card = Lent::new(&card::bytes(&j.table, &j.request), GUARD);
        let told = Told {
            number: 10,
            place: 0,
            value: 0,
            tick: 3,
            excess: 2,
        };
        changes_nothing(Act::Ask(j.request.into()), &now, told);
        changes_nothing(Act::Admit(j.request.into()), &now, told);
        changes_nothing(Act::Run(0), &now, told);
        assert_eq!(told.refusal(), "refused 10 0 3 2");
        assert_eq!(should(&Act::Answer, &mut now), Told::value(17));
        assert_eq!(&now.out.part()[..18], b"refused 10 0 3 2\n\x07");
    }

    /// R100 to R102: a running line goes at its end, with what it has had; a waiting one at once.
    #[test]
    fn case_a_let_go() {
        let (table, request) = case_a();
        let (_, admitted) = rules::admit(&table, &request).expect("case A");
        let mut now = on_table(&admitted);
        assert_eq!(should(&Act::Leave(1), &mut now), Told::value(8));
        assert_eq!(should(&Act::Leave(2), &mut now), Told::value(0));
        changes_nothing(Act::Leave(1), &now, refused(16, 1));
        changes_nothing(Act::Leave(2), &now, refused(16, 2));
        changes_nothing(Act::Leave(16), &now, refused(16, 16));
        // A number of which only the lowest bits name a slot.
        for number in [1 << 8, 1 << 16, 1 << 32, u64::MAX] {
            changes_nothing(Act::Leave(number), &now, refused(16, number));
        }
        let mut wanted = admitted;
        wanted.slots[2] = Content::Nothing;
        if let Content::Running(run) = &mut wanted.slots[1] {
            run.follows = Follows::Leaves;
        }
        assert_eq!(now, on_table(&wanted));
        for _ in 0..8 {
            assert_eq!(should(&Act::Step, &mut now), Told::value(1));
        }
        assert_eq!(should(&Act::Counts, &mut now), Told::value(16));
        let mut counts = [0; 18];
        counts[17] = 8;
        assert_eq!(now.counts.part(), counts);
        changes_nothing(Act::Leave(1), &now, refused(16, 1));
    }

    #[test]
    fn a_step_that_serves_nothing() {
        let mut now = on_table(&EMPTY);
        assert_eq!(should(&Act::Step, &mut now), Told::value(255));
        let mut next = Table { clock: 1, ..EMPTY };
        next.counts.idle = 1;
        assert_eq!(now, on_table(&next));
        let last = Table {
            clock: LAST_TICK,
            ..EMPTY
        };
        changes_nothing(Act::Step, &on_table(&last), refused(15, 0));
        changes_nothing(Act::Ask(ZEROS.into()), &on_table(&last), refused(1, 0));
    }

    #[test]
    fn a_broken_image_is_refused_first() {
        // An unsound waiting line behind the last tick, and no buffer to write into: R83 comes before all of these.
        let mut table = Table {
            clock: u64::MAX,
            ..EMPTY
        };
        table.slots[9] = Content::Waiting(Wait {
            need: 0,
            period: 0,
            wait: 0,
        });
        let mut bytes = image::bytes(&table);
        bytes[152] = 1;
        let acts = [
            Act::Ask(ZEROS.into()),
            Act::Admit(ZEROS.into()),
            Act::Step,
            Act::Ready,
            Act::WriteCard(ZEROS.into()),
        ];
        for act in acts.into_iter().chain([Act::Counts, Act::Leave(9)]) {
            changes_nothing(act, &desk(&bytes, 0), refused(11, 152));
            changes_nothing(act, &desk(&bytes[..80], 0), refused(11, 80));
        }
        bytes[152] = 0;
        let grounds = [(1, 0), (1, 0), (15, 0), (0, 0), (3, 9)];
        for (act, (number, place)) in acts.into_iter().zip(grounds) {
            changes_nothing(act, &desk(&bytes, 0), refused(number, place));
        }
    }

    /// R98: any counts are shown, the idle count and then the departed one last, also where the lines and the sum would be
    /// refused.
    #[test]
    fn counts_of_any_table() {
        let mut table = Table { clock: 5, ..EMPTY };
        table.slots[3] = Content::Waiting(Wait {
            need: 0,
            period: 0,
            wait: 0,
        });
        let counts: [u64; 18] = std::array::from_fn(|place| u64::MAX - place as u64);
        table.counts.had.copy_from_slice(&counts[..16]);
        (table.counts.idle, table.counts.departed) = (counts[16], counts[17]);
        let mut wanted = on_table(&table);
        wanted.counts = Lent::new(&counts, GUARD.into());
        let mut now = on_table(&table);
        assert_eq!(should(&Act::Counts, &mut now), Told::value(5));
        assert_eq!(now, wanted);
    }

    #[test]
    fn a_table_to_its_card() {
        let (table, request) = case_a();
        let bytes = image::bytes(&table);
        changes_nothing(
            Act::WriteCard(request.into()),
            &desk(&bytes, 39),
            refused(13, 0),
        );
        let mut now = desk(&bytes, 42);
        assert_eq!(
            should(&Act::WriteCard(request.into()), &mut now),
            Told::value(40)
        );
        assert_eq!(now.out.part(), [&CARD_A[..], &[FILL; 2]].concat());
        now.out = desk(&bytes, 42).out;
        assert_eq!(now, desk(&bytes, 42));
    }

    #[test]
    fn a_card_to_its_table() {
        changes_nothing(Act::ReadCard, &desk(&[FILL; 297], 0), refused(13, 0));
        let mut cut = desk(&[], 0);
        cut.card = Lent::new(&CARD_A[..33], GUARD);
        changes_nothing(Act::ReadCard, &cut, refused(11, 22));
        // R56: where the last slot was, what was lent had another byte than none.
        let mut now = desk(&[FILL; 299], 0);
        assert_eq!(should(&Act::ReadCard, &mut now), Told::value(298));
        let mut wanted = desk(&[image::bytes(&case_a().0), vec![FILL]].concat(), 0);
        let mut numbers = [0; 18];
        (numbers[0], numbers[1]) = (32, 16);
        (numbers[SLOTS], numbers[SLOTS + 1]) = (1, 4);
        wanted.numbers = Lent::new(&numbers, GUARD.into());
        assert_eq!(now, wanted);
    }

    #[test]
    fn the_operations_on_cards() {
        let mut now = desk(&[], 40);
        assert_eq!(should(&Act::Answer, &mut now), Told::value(11));
        assert_eq!(&now.out.part()[..12], b"release 13\n\x07");
        assert_eq!(should(&Act::Rewrite, &mut now), Told::value(40));
        assert_eq!(now.out.part(), CARD_A);
        changes_nothing(Act::Run(26), &now, Told::value(23));
        changes_nothing(Act::Answer, &desk(&[], 10), refused(13, 0));
        changes_nothing(Act::Rewrite, &desk(&[], 39), refused(13, 0));
        now.card = Lent::new(&orders::old(&CARD_A), GUARD);
        assert_eq!(should(&Act::Rewrite, &mut now), Told::placed(40, 0b11));
        assert_eq!(now.out.part(), CARD_A);
        now.card = Lent::new(&card::bytes(&EMPTY, &ZEROS), GUARD);
        changes_nothing(Act::Run(1), &now, refused(6, 0));
    }
}
