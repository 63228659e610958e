//! Libraries that count wrongly (R42, R96 to R98), or test the counts wrongly (R24).

use super::{granted, table, with, Fault};
use crate::boundary::{should, Act, Desk, Told, NO_SLOT};
use crate::history::operation::Operation;
use crate::image;
use crate::rules;
use crate::types::{Table, IDLE, SLOTS};

pub const FAULTS: [Fault; 11] = [
    ("served uncounted", served_uncounted, 2),
    ("idle uncounted", idle_uncounted, 1),
    ("kept over an admission", kept_over_an_admission, 3),
    ("wrapping sum", wrapping_sum, 3),
    ("empty slots left out", empty_slots_left_out, 2),
    ("equal refused", equal_refused, 1),
    ("counts before lines", counts_before_lines, 3),
    ("counts after 14", counts_after_14, 4),
    ("too many not shown", too_many_not_shown, 2),
    ("departed before idle", departed_before_idle, 2),
    ("refusal shows", refusal_shows, 3),
];

/// A count put into the image.
fn put(desk: &mut Desk, place: usize, ticks: u64) {
    Operation::Count(place, ticks).lay(desk);
}

/// A granted step takes back what it counted at this place.
fn uncounted(act: &Act, desk: &mut Desk, is_wrong: fn(u64) -> bool) -> Told {
    with(act, desk, |told, desk| {
        if *act == Act::Step && granted(told) && is_wrong(told.value) {
            let place = (told.value as usize).min(SLOTS);
            let ticks = image::count(desk.image.part(), place);
            // R101: of a line that is gone with its tick nothing stands there any more.
            put(desk, place, ticks.saturating_sub(1));
        }
    })
}

/// A tick of a slot is not counted.
fn served_uncounted(act: &Act, desk: &mut Desk) -> Told {
    uncounted(act, desk, |slot| slot != NO_SLOT)
}

/// A tick in which no line runs is not counted.
fn idle_uncounted(act: &Act, desk: &mut Desk) -> Told {
    uncounted(act, desk, |slot| slot == NO_SLOT)
}

/// The new line goes on with the count of its slot.
fn kept_over_an_admission(act: &Act, desk: &mut Desk) -> Told {
    let before = table(desk);
    with(act, desk, |told, desk| {
        if let (Act::Admit(_), true, Some(table)) = (act, granted(told), before) {
            let slot = told.place as usize;
            put(desk, slot, table.counts.had[slot]);
        }
    })
}

/// What is refused by its counts, and passes another way of testing them, is answered as if it had none.
fn tested(act: &Act, desk: &mut Desk, passes: fn(&Table) -> bool) -> Told {
    let Some(before) = table(desk).filter(|table| matches!(act, Act::Ask(_)) && passes(table))
    else {
        return should(act, desk);
    };
    let mut uncounted = desk.clone();
    let bytes = image::bytes(&before.uncounted());
    uncounted.image.replace(&bytes);
    should(act, &mut uncounted)
}

/// The counts are added up in 64 bits.
fn wrapping_sum(act: &Act, desk: &mut Desk) -> Told {
    tested(act, desk, |table| {
        let sum = table.counts.all().into_iter().fold(0, u64::wrapping_add);
        sum <= table.clock
    })
}

/// What stands beside a slot that holds nothing is not added up.
fn empty_slots_left_out(act: &Act, desk: &mut Desk) -> Told {
    tested(act, desk, |table| {
        !table.counted_where_used().is_overcounted()
    })
}

/// Counts that add up to the clock are refused.
fn equal_refused(act: &Act, desk: &mut Desk) -> Told {
    match table(desk) {
        Some(table) if *act == Act::Step && table.counts.sum() == table.clock.into() => {
            Told::refused(4_u64, 0)
        }
        _ => should(act, desk),
    }
}

/// Where both parts of ground 4 hold the second is told.
fn counts_before_lines(act: &Act, desk: &mut Desk) -> Told {
    with(act, desk, |told, desk| {
        let overcounted = table(desk).is_some_and(|table| table.is_overcounted());
        if told.number == 4 && overcounted {
            told.place = 0;
        }
    })
}

/// A period that ends short is told before the counts.
fn counts_after_14(act: &Act, desk: &mut Desk) -> Told {
    let before = table(desk);
    with(act, desk, |told, _| {
        let (Act::Step, Some(table)) = (act, before) else {
            return;
        };
        let stepped = rules::step(&table.uncounted());
        if let (4, Err(refusal)) = (told.number, stepped) {
            *told = refusal.into();
        }
    })
}

/// The counts of a table that the step would refuse are not shown.
fn too_many_not_shown(act: &Act, desk: &mut Desk) -> Told {
    match table(desk) {
        Some(table) if *act == Act::Counts && table.is_overcounted() => Told::refused(4_u64, 0),
        _ => should(act, desk),
    }
}

/// The two last counts are exchanged.
fn departed_before_idle(act: &Act, desk: &mut Desk) -> Told {
    with(act, desk, |told, desk| {
        if *act == Act::Counts && granted(told) {
            desk.counts.part_mut().swap(IDLE, IDLE + 1);
        }
    })
}

/// Counts that are not to be shown are made 0.
fn refusal_shows(act: &Act, desk: &mut Desk) -> Told {
    with(act, desk, |told, desk| {
        if *act == Act::Counts && !granted(told) {
            desk.counts.part_mut().fill(0);
        }
    })
}
