//! Libraries that give a tick to the wrong one of several lines (R44), or keep the last slot wrongly (R56, R81, R105, R107).

use super::leaving::{gone, left};
use super::{granted, table, with, Fault};
use crate::boundary::{should, Act, Desk, Told};
use crate::history::operation::Operation;
use crate::history::replay;
use crate::image;
use crate::published;
use crate::rules::{self, first_to_end};
use crate::types::{Content, Run, Table, NO_LAST, SLOTS};

pub const FAULTS: [Fault; 23] = [
    ("the last before a sooner end", before_a_sooner_end, 4),
    ("the last owed nothing goes on", owed_nothing_goes_on, 3),
    ("always the lowest", always_the_lowest, 4),
    ("never the last", never_the_last, 4),
    ("the highest where none is", the_highest, 3),
    ("the lowest bits name it", lowest_bits, 3),
    ("an idle tick keeps it", idle_keeps, 2),
    ("gone with its tick, and kept", gone_keeps, 2),
    ("another gone, and forgotten", another_gone_forgets, 3),
    ("a new period forgets it", a_new_period_forgets, 2),
    ("removed, and kept", removed_keeps, 3),
    ("another removed, and forgotten", another_removed_forgets, 3),
    ("removed, and made none", removed_makes_none, 3),
    ("asked to leave, and forgotten", asked_forgets, 3),
    ("admitted, and forgotten", admitted_forgets, 2),
    ("admitted to it, and forgotten", admitted_to_it_forgets, 2),
    ("a refused step forgets it", refused_step_forgets, 3),
    ("a refused admission forgets", refused_admission_forgets, 2),
    ("not stored", not_stored, 2),
    ("above 15 a fault", above_15_a_fault, 2),
    ("above 15 broken", above_15_broken, 2),
    ("kept over a card", kept_over_a_card, 3),
    ("ask looks at it", ask_looks_at_it, 4),
];

/// A step by which another slot gets the tick and another table is left, if it can; else the right one.
fn steps_to(act: &Act, desk: &mut Desk, wrong: fn(&Table) -> Option<(usize, Table)>) -> Told {
    let before = table(desk).filter(|table| *act == Act::Step && rules::step(table).is_ok());
    match before.and_then(|table| wrong(&table)) {
        Some((slot, next)) => {
            desk.image.replace(&image::bytes(&next));
            Told::slot(Some(slot))
        }
        None => should(act, desk),
    }
}

/// The table after a tick of a line that is owed one.
fn served(table: &Table, slot: Option<usize>) -> Option<(usize, Table)> {
    Some((slot?, rules::ticked(table, slot).ok()?))
}

/// The last goes on as long as it is owed.
fn before_a_sooner_end(act: &Act, desk: &mut Desk) -> Told {
    steps_to(act, desk, |table| {
        let owed = |slot: &usize| table.owed().any(|(other, _)| other == *slot);
        served(table, table.last_slot().filter(owed))
    })
}

/// The last goes on though it has had all its need, as if it were owed a tick.
fn owed_nothing_goes_on(act: &Act, desk: &mut Desk) -> Told {
    steps_to(act, desk, |table| {
        let (mut owing, last) = (*table, table.last_slot()?);
        match &mut owing.slots[last] {
            Content::Running(run) if run.remaining == 0 => run.remaining = 1,
            _ => return None,
        }
        let goes_on = first_to_end(&owing).contains(&last);
        served(&owing, goes_on.then_some(last))
    })
}

/// The rule that was before.
fn always_the_lowest(act: &Act, desk: &mut Desk) -> Told {
    steps_to(act, desk, |table| {
        let (next, slot) = published::step(table).ok()?;
        Some((slot?, next))
    })
}

/// Of several that end first one goes on that did not run.
fn never_the_last(act: &Act, desk: &mut Desk) -> Told {
    steps_to(act, desk, |table| {
        let mut others = first_to_end(table).into_iter();
        served(table, others.find(|slot| table.last_slot() != Some(*slot)))
    })
}

/// Where the last is not among those that end first the highest goes on.
fn the_highest(act: &Act, desk: &mut Desk) -> Told {
    steps_to(act, desk, |table| {
        let first = first_to_end(table);
        let last = table.last_slot().filter(|slot| first.contains(slot));
        served(table, last.or(first.last().copied()))
    })
}

/// Of the last slot the lowest four bits are looked at.
fn lowest_bits(act: &Act, desk: &mut Desk) -> Told {
    steps_to(act, desk, |table| {
        let last = usize::from(table.last) % SLOTS;
        let goes_on = first_to_end(table).contains(&last);
        served(table, goes_on.then_some(last))
    })
}

/// The last slot of what a call leaves is another, by what it was told and the table before; none where it is right.
fn kept(act: &Act, desk: &mut Desk, last: fn(&Act, &Told, &Table) -> Option<u8>) -> Told {
    let before = table(desk);
    with(act, desk, |told, desk| {
        let wrong = before.and_then(|table| last(act, told, &table));
        if let Some(last) = wrong {
            Operation::Last(last).lay(desk);
        }
    })
}

fn idle_keeps(act: &Act, desk: &mut Desk) -> Told {
    kept(act, desk, |act, told, before| {
        (*act == Act::Step && *told == Told::slot(None)).then_some(before.last)
    })
}

fn gone_keeps(act: &Act, desk: &mut Desk) -> Told {
    gone(act, desk, |desk, slot, _, ran| {
        if ran == slot as u64 {
            Operation::Last(slot as u8).lay(desk);
        }
    })
}

/// With any line that is gone it becomes none.
fn another_gone_forgets(act: &Act, desk: &mut Desk) -> Told {
    gone(act, desk, |desk, _, _, _| {
        Operation::Last(NO_LAST).lay(desk);
    })
}

/// A line that got the last tick of its period is forgotten, as if it were gone.
fn a_new_period_forgets(act: &Act, desk: &mut Desk) -> Told {
    kept(act, desk, |act, told, before| {
        let ran = before.slots.get(told.value as usize);
        let ends = |run: &Run| run.age + 1 == run.period;
        let ended = matches!(ran, Some(Content::Running(run)) if ends(run));
        (*act == Act::Step && granted(told) && ended).then_some(NO_LAST)
    })
}

/// If a line that waits was removed, the last slot is another; none where it is right.
fn removed(desk: &mut Desk, held: &Content, last: Option<u8>) {
    if let (true, Some(last)) = (held.is_waiting(), last) {
        Operation::Last(last).lay(desk);
    }
}

fn removed_keeps(act: &Act, desk: &mut Desk) -> Told {
    left(act, desk, |desk, slot, before| {
        removed(desk, &before.slots[slot], Some(before.last));
    })
}

/// With any line that is removed it becomes none.
fn another_removed_forgets(act: &Act, desk: &mut Desk) -> Told {
    left(act, desk, |desk, slot, before| {
        removed(desk, &before.slots[slot], Some(NO_LAST));
    })
}

/// A number that names no slot becomes none where a line is removed.
fn removed_makes_none(act: &Act, desk: &mut Desk) -> Told {
    left(act, desk, |desk, slot, before| {
        let no_slot = before.last_slot().is_none();
        removed(desk, &before.slots[slot], no_slot.then_some(NO_LAST));
    })
}

/// A line that is asked to leave is taken for one that is gone.
fn asked_forgets(act: &Act, desk: &mut Desk) -> Told {
    left(act, desk, |desk, slot, before| {
        if before.last_slot() == Some(slot) {
            Operation::Last(NO_LAST).lay(desk);
        }
    })
}

fn admitted_forgets(act: &Act, desk: &mut Desk) -> Told {
    kept(act, desk, |act, told, _| {
        (matches!(act, Act::Admit(_)) && granted(told)).then_some(NO_LAST)
    })
}

/// A new line in its slot has not run yet, and it is forgotten therefore.
fn admitted_to_it_forgets(act: &Act, desk: &mut Desk) -> Told {
    kept(act, desk, |act, told, before| {
        let own = before.last_slot() == Some(told.place as usize);
        (matches!(act, Act::Admit(_)) && granted(told) && own).then_some(NO_LAST)
    })
}

fn refused_step_forgets(act: &Act, desk: &mut Desk) -> Told {
    kept(act, desk, |act, told, _| {
        (*act == Act::Step && !granted(told)).then_some(NO_LAST)
    })
}

fn refused_admission_forgets(act: &Act, desk: &mut Desk) -> Told {
    kept(act, desk, |act, told, _| {
        (matches!(act, Act::Admit(_)) && !granted(told)).then_some(NO_LAST)
    })
}

/// What a step leaves has none.
fn not_stored(act: &Act, desk: &mut Desk) -> Told {
    kept(act, desk, |act, told, _| {
        (*act == Act::Step && granted(told)).then_some(NO_LAST)
    })
}

/// R105: a number that is neither a slot's nor none is told as a refusal.
fn faulty(act: &Act, desk: &mut Desk, refused: Told) -> Told {
    let no_slot = |table: &Table| table.last_slot().is_none() && table.last != NO_LAST;
    match table(desk).filter(no_slot) {
        Some(_) if *act == Act::Step => refused,
        _ => should(act, desk),
    }
}

fn above_15_a_fault(act: &Act, desk: &mut Desk) -> Told {
    faulty(act, desk, Told::refused(4_u64, 0))
}

fn above_15_broken(act: &Act, desk: &mut Desk) -> Told {
    faulty(act, desk, Told::refused(11_u64, image::LAST as u64))
}

/// The byte is not written with a card's table.
fn kept_over_a_card(act: &Act, desk: &mut Desk) -> Told {
    kept(act, desk, |act, told, before| {
        (*act == Act::ReadCard && granted(told)).then_some(before.last)
    })
}

/// R107: a line that is owed and ran last has a tick more before the new one starts.
fn ask_looks_at_it(act: &Act, desk: &mut Desk) -> Told {
    with(act, desk, |told, desk| {
        let owed = |table: Table| {
            let mut owed = table.owed();
            owed.any(|(slot, _)| Some(slot) == table.last_slot())
        };
        if matches!(act, Act::Ask(_)) && granted(told) && table(desk).is_some_and(owed) {
            told.value += 1;
        }
    })
}

/// R105: the last slot stands behind the counts, where it is not none; it is laid by its number or by that word.
#[test]
fn a_history_says_who_ran_last() {
    let text = "slot 0 runs 1 4 0 1\nslot 2 runs 2 4 0 2\nlast 2\n\
                table: clock 0, slot 0 runs 1 4 0 1, slot 2 runs 2 4 0 2, last 2\n\
                step 3: 220\ntable: clock 3, slot 0 runs 1 4 3 0, slot 2 runs 2 4 3 0, slot 0 had 1, slot 2 had 2, last 0\n\
                step: .\nslot 0 nothing\ntable: clock 4, slot 2 runs 2 4 0 2, slot 0 had 1, slot 2 had 2, idle 1\n\
                last 254\nleave 2: gone in 4\ntable: clock 4, slot 2 leaves 2 4 0 2, slot 0 had 1, slot 2 had 2, idle 1, last 254\n\
                last none\ntable: clock 4, slot 2 leaves 2 4 0 2, slot 0 had 1, slot 2 had 2, idle 1\n";
    assert_eq!(replay::replayed(should, text), Ok((text.to_string(), true)));
}
