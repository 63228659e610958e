//! What the project's library does in a call, through the crate of bindings/rust.

use crate::boundary::{Act, Desk, Told};
use trimthuel::numbers::{self, Numbers};

impl From<Numbers> for Told {
    fn from(numbers: Numbers) -> Told {
        Told {
            number: numbers.number,
            place: numbers.place,
            value: numbers.value,
            tick: numbers.tick,
            excess: numbers.excess,
        }
    }
}

/// What the library tells of an act, and leaves on its desk.
pub fn did(act: &Act, desk: &mut Desk) -> Told {
    let (image, card, out) = (&mut desk.image, &desk.card, &mut desk.out);
    let stretched = desk.stretched.array();
    let numbers = match act {
        Act::Answer => numbers::answer(card.part(), out.part_mut()),
        Act::Rewrite => numbers::rewrite(card.part(), out.part_mut()),
        Act::Run(ticks) => numbers::run(card.part(), *ticks),
        Act::Empty => numbers::empty(image.part_mut()),
        Act::Ask(line) => numbers::ask(image.part(), line.need, line.period, stretched),
        Act::Admit(line) => numbers::admit(image.part_mut(), line.need, line.period, stretched),
        Act::Step => numbers::step(image.part_mut()),
        Act::Leave(number) => numbers::leave(image.part_mut(), *number),
        Act::Ready => numbers::ready(image.part()),
        Act::Counts => numbers::counts(image.part(), desk.counts.array_mut()),
        Act::Lamp(number) => return Told::value(numbers::lamp(*number).into()),
        Act::WriteCard(line) => {
            let (image, out) = (image.part(), out.part_mut());
            numbers::write_card(image, line.need, line.period, stretched, out)
        }
        Act::ReadCard => {
            numbers::read_card(card.part(), image.part_mut(), desk.numbers.array_mut())
        }
        Act::Version => return Told::value(numbers::version().into()),
    };
    numbers.into()
}
