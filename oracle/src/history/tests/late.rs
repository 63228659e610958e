//! Libraries that say wrongly by how much it is late (R61, R103).

use super::{granted, table, with, Fault};
use crate::boundary::{Act, Desk, Told};
use crate::history::compared;
use crate::history::tally::Tally;
use crate::rules::{self, End};
use crate::types::{Request, Table};
use std::cell::Cell;

pub const FAULTS: [Fault; 13] = [
    ("first in slot order", first_in_slot_order, 5),
    ("greatest excess", greatest_excess, 5),
    ("the last tick", the_last_tick, 5),
    ("counted from the clock", counted_from_the_clock, 6),
    ("tick cut", tick_cut, 5),
    ("a tick too many", a_tick_too_many, 4),
    ("exchanged", exchanged, 4),
    ("told with 9 too", told_with_9_too, 4),
    ("told with a start", told_with_a_start, 2),
    ("at their own periods", at_their_own_periods, 5),
    ("as if they renewed", as_if_they_renewed, 6),
    ("not admitted", not_admitted, 4),
    ("not in the line", not_in_the_line, 2),
];

/// The tick and the excess of another end of the running lines in the place of what ask is told with this number, if there is one.
fn said(
    act: &Act,
    desk: &mut Desk,
    number: u64,
    which: fn(&Table, &Request) -> Option<End>,
) -> Told {
    with(act, desk, |told, desk| {
        let Act::Ask(line) = act else { return };
        let table = table(desk).filter(|_| told.number == number);
        let end = table.and_then(|table| which(&table, &desk.request(line)));
        if let Some(end) = end {
            (told.tick, told.excess) = (end.tick, end.excess as u64);
        }
    })
}

/// The ends that are short, slot by slot.
fn short(table: &Table, request: &Request) -> impl Iterator<Item = End> {
    let ends = rules::ends_alone(table, request).into_iter();
    ends.filter(|end| end.excess > 0)
}

/// R103: the one that is wanted.
fn first(table: &Table, request: &Request) -> Option<End> {
    short(table, request).min_by_key(|end| end.tick)
}

fn first_in_slot_order(act: &Act, desk: &mut Desk) -> Told {
    said(act, desk, 10, |table, request| short(table, request).next())
}

fn greatest_excess(act: &Act, desk: &mut Desk) -> Told {
    said(act, desk, 10, |table, request| {
        short(table, request).max_by_key(|end| end.excess)
    })
}

fn the_last_tick(act: &Act, desk: &mut Desk) -> Told {
    said(act, desk, 10, |table, request| {
        short(table, request).max_by_key(|end| end.tick)
    })
}

/// The tick is not absolute.
fn counted_from_the_clock(act: &Act, desk: &mut Desk) -> Told {
    said(act, desk, 10, |table, request| {
        let first = first(table, request)?;
        let tick = first.tick - table.clock;
        Some(End { tick, ..first })
    })
}

/// The ends at T and not at T'.
fn at_their_own_periods(act: &Act, desk: &mut Desk) -> Told {
    said(act, desk, 10, |table, request| {
        first(table, &request.unstretched(table))
    })
}

/// A line that leaves has further ends.
fn as_if_they_renewed(act: &Act, desk: &mut Desk) -> Told {
    said(act, desk, 10, |table, request| {
        first(&table.renewing(), request)
    })
}

/// Lines that are behind their shares are told to be late too.
fn told_with_9_too(act: &Act, desk: &mut Desk) -> Told {
    said(act, desk, 9, first)
}

/// A change of what is told with 10.
fn told_late(act: &Act, desk: &mut Desk, change: fn(&mut Told)) -> Told {
    with(act, desk, |told, _| {
        if told.number == 10 {
            change(told);
        }
    })
}

/// Of the tick the lower 32 bits are told.
fn tick_cut(act: &Act, desk: &mut Desk) -> Told {
    told_late(act, desk, |told| told.tick &= 0xFFFF_FFFF)
}

fn a_tick_too_many(act: &Act, desk: &mut Desk) -> Told {
    told_late(act, desk, |told| told.excess += 1)
}

pub fn exchanged(act: &Act, desk: &mut Desk) -> Told {
    told_late(act, desk, |told| {
        (told.tick, told.excess) = (told.excess, told.tick);
    })
}

/// The tick of a start stands among those that 10 has.
fn told_with_a_start(act: &Act, desk: &mut Desk) -> Told {
    with(act, desk, |told, _| {
        if matches!(act, Act::Ask(_)) && granted(told) {
            told.tick = told.value;
        }
    })
}

/// An admission does not hand on what ask says.
fn not_admitted(act: &Act, desk: &mut Desk) -> Told {
    with(act, desk, |told, _| {
        if matches!(act, Act::Admit(_)) {
            (told.tick, told.excess) = (0, 0);
        }
    })
}

/// A card's line has number and place alone.
fn not_in_the_line(act: &Act, desk: &mut Desk) -> Told {
    let fill = desk.fill();
    with(act, desk, |told, desk| {
        let (line, short) = (desk.out.part_mut(), b"refused 10 0\n");
        if *act == Act::Answer && granted(told) && line.starts_with(&short[..12]) {
            line[..told.value as usize].fill(fill);
            line[..short.len()].copy_from_slice(short);
            told.value = short.len() as u64;
        }
    })
}

thread_local! {
    /// The tick and the excess of the last 10.
    static LAST: Cell<(u64, u64)> = const { Cell::new((0, 0)) };
}

/// A refusal after 10 still has what 10 said.
fn kept_for_the_next_refusal(act: &Act, desk: &mut Desk) -> Told {
    with(act, desk, |told, _| match told.number {
        0 => {}
        10 => LAST.set((told.tick, told.excess)),
        _ => (told.tick, told.excess) = LAST.take(),
    })
}

/// Such a library remembers a call, so that its history cannot always be made short: it is found all the same.
#[test]
fn what_is_kept_for_the_next_refusal_is_found() {
    let mut tally = Tally::default();
    let found = compared(
        kept_for_the_next_refusal,
        super::CALLS,
        super::SEED,
        &mut tally,
    );
    assert!(found.is_some(), "{tally}");
}
