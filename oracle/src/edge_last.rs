//! The last slot (R105) and who gets the tick by it (R44), on both sides of each limit. The answers are worked out by hand from
//! docs/RULES.md.

use crate::boundary::{should, Act, Desk, Told};
use crate::by_hand::{leaves, refused, runs, stepped, table, waits};
use crate::cases;
use crate::image;
use crate::published;
use crate::rules::{admit, ask, leave, step};
use crate::types::{Content, Request, Table, EMPTY, SLOTS, ZEROS};

/// R81: the places of the idle count and of the departed one.
const IDLE: usize = 16;
const DEPARTED: usize = 17;

/// R7: 2^48.
const LAST_TICK: u64 = 281_474_976_710_656;

/// R105: none, in digits of its own.
const NONE: u8 = 255;

/// A table at clock 9 with these lines, and this number for its last slot.
fn after(last: u8, lines: &[(usize, Content)]) -> Table {
    Table {
        last,
        ..table(9, lines, &[])
    }
}

/// Who gets the tick.
fn ran(table: &Table) -> Option<usize> {
    step(table).expect("in order").1
}

/// Lines in 3, 7 and 9 that are owed and end in 5 ticks, one that ends then and is owed nothing, one that is owed and ends a tick later,
/// and one that waits.
fn equal_ends() -> [(usize, Content); 6] {
    [
        (3, runs([2, 8, 3, 2])),
        (7, leaves([1, 6, 1, 1])),
        (9, runs([3, 5, 0, 1])),
        (4, runs([1, 5, 0, 0])),
        (5, runs([1, 9, 3, 1])),
        (11, waits([1, 4, 2])),
    ]
}

/// R44: with every number that there is, the slots of all these lines, empty ones, 15, 16, 254 and none among them.
#[test]
fn among_equal_ends_the_last_else_the_lowest() {
    for last in 0..=u8::MAX {
        let wanted = match last {
            7 => 7,
            9 => 9,
            _ => 3,
        };
        let (next, ran) = step(&after(last, &equal_ends())).expect("in order");
        assert_eq!((ran, next.last), (Some(wanted.into()), wanted), "{last}");
    }
}

/// R105: 15 is a slot; 16, 31 and 239, whose lowest bits are the same or none, are none, and so is 255.
#[test]
fn the_slots_end_with_15() {
    let lines = [(0, runs([1, 4, 2, 1])), (15, runs([1, 4, 2, 1]))];
    for (last, wanted) in [
        (0, 0),
        (15, 15),
        (16, 0),
        (31, 0),
        (239, 0),
        (254, 0),
        (NONE, 0),
    ] {
        assert_eq!(ran(&after(last, &lines)), Some(wanted), "{last}");
    }
}

/// R44: the last line ends in 5 ticks; another, in a lower slot or a higher one, a tick sooner, with it, or a tick later.
#[test]
fn a_sooner_end_takes_the_tick() {
    for other in [1, 9] {
        for (age, after_4, after_none) in [(4, other, other), (3, 4, other.min(4)), (2, 4, 4)] {
            let lines = [(4, runs([1, 8, 3, 1])), (other, runs([1, 8, age, 1]))];
            assert_eq!(ran(&after(4, &lines)), Some(after_4), "{other} {age}");
            assert_eq!(ran(&after(NONE, &lines)), Some(after_none), "{other} {age}");
        }
    }
}

/// R44: it goes on with a tick owed, and not with none, however much sooner it ends.
#[test]
fn nothing_owed() {
    for age in [3, 7] {
        for (owed, wanted) in [(1, 4), (0, 1)] {
            let lines = [(1, runs([2, 8, 3, 2])), (4, runs([1, 8, age, owed]))];
            assert_eq!(ran(&after(4, &lines)), Some(wanted), "{age} {owed}");
        }
    }
}

/// R45, R105: nothing else of a table is another by it.
#[test]
fn what_a_tick_leaves() {
    let lines = [(1, runs([2, 8, 3, 2])), (4, runs([2, 8, 3, 2]))];
    let served = [(1, runs([2, 8, 4, 2])), (4, runs([2, 8, 4, 1]))];
    let next = Table {
        last: 4,
        ..table(10, &served, &[(4, 1)])
    };
    assert_eq!(step(&after(4, &lines)), Ok((next, Some(4))));
}

/// R105: a tick of nobody makes it none, whatever it was, though the line that ran before is still there.
#[test]
fn an_idle_tick() {
    for last in 0..=u8::MAX {
        let lines = [(4, runs([1, 8, 3, 0])), (6, waits([1, 4, 2]))];
        let (next, ran) = step(&after(last, &lines)).expect("in order");
        assert_eq!((ran, next.last), (None, NONE));
    }
}

/// R46: slot 1 has the last tick of its period. Slot 0 ends with the next one, and slot 1 goes on; without it slot 0 has the tick.
#[test]
fn on_into_the_next_period() {
    let lines = [(0, runs([1, 3, 0, 1])), (1, runs([1, 2, 1, 1]))];
    let (ran, next) = stepped(after(NONE, &lines), 3);
    assert_eq!((&ran[..], next.last), (&[1, 1, 0].map(Some)[..], 0));
    let (_, once) = stepped(after(NONE, &lines), 1);
    assert_eq!(stepped(once.without_last(), 2).0, [0, 1].map(Some));
}

/// R46, R105: a line is gone with the tick that it got; the next one in its slot has not got it. With a tick more in its period it stays,
/// and so does who got the tick.
#[test]
fn gone_with_its_tick() {
    let other = |age| (0, runs([1, 8, age, 1]));
    for (slot, number) in [(5, 5), (15, 15)] {
        for last in [0, number, 16, NONE] {
            let ends = [other(2), (slot, leaves([2, 4, 3, 1]))];
            let next = table(10, &[other(3)], &[(DEPARTED, 1)]);
            assert_eq!(step(&after(last, &ends)), Ok((next, Some(slot))), "{last}");
        }
        let stays = [other(2), (slot, leaves([2, 4, 2, 1]))];
        let (next, _) = step(&after(number, &stays)).expect("in order");
        assert_eq!(next.last, number);
    }
}

/// R105: a line that is gone in a tick of another, or of nobody.
#[test]
fn gone_without_the_tick() {
    let ends = (2, leaves([1, 4, 3, 0]));
    for last in [2, 5, NONE] {
        let (next, ran) = step(&after(last, &[ends, (5, runs([1, 4, 3, 1]))])).expect("in order");
        assert_eq!((ran, next.last), (Some(5), 5), "{last}");
        assert_eq!(next.slots[2], Content::Nothing);
        let (next, ran) = step(&after(last, &[ends])).expect("in order");
        assert_eq!((ran, next), (None, table(10, &[], &[(IDLE, 1)])));
    }
}

/// R100, R105: a waiting line in slot 3 or 15 is removed. Every other number stays, those that name no slot too.
#[test]
fn a_waiting_line_is_removed() {
    let other = (7, runs([1, 4, 0, 1]));
    for slot in [3, 15] {
        for last in 0..=u8::MAX {
            let kept = if last == slot { NONE } else { last };
            let waiting = after(last, &[(slot.into(), waits([1, 4, 2])), other]);
            let removed = leave(&waiting, slot.into());
            assert_eq!(removed, Ok((0, after(kept, &[other]))), "{last}");
        }
    }
}

/// R105: being asked to leave keeps it, and R106: whoever is asked, the line that ran goes on.
#[test]
fn asked_to_leave() {
    let lines = [(3, runs([1, 8, 3, 1])), (7, runs([2, 8, 3, 2]))];
    for last in 0..=u8::MAX {
        for number in [3, 7] {
            let (_, asked) = leave(&after(last, &lines), number).expect("a line");
            assert_eq!(asked.last, last);
            let wanted = if last == 7 { 7 } else { 3 };
            assert_eq!(ran(&asked), Some(wanted), "{last} {number}");
        }
    }
}

/// R42, R105: an admission keeps it, also where it names the slot that the new line comes to. That line ends with another, in a lower
/// slot, and has its first tick before it then.
#[test]
fn admitted_to_the_last_slot() {
    let request = Request {
        stretched: [4; SLOTS],
        need: 1,
        period: 4,
    };
    for (last, wanted) in [(1, 1), (0, 0), (2, 0), (17, 0), (NONE, 0)] {
        let lines = [(0, runs([1, 4, 0, 1]))];
        let (start, next) = admit(&after(last, &lines), &request).expect("room");
        assert_eq!((start, next.last), (9, last));
        assert_eq!(ran(&next), Some(wanted), "{last}");
    }
}

/// R67, case A: the new line waits in slot 2. Nobody has ended there, so that it is kept until that line is removed.
#[test]
fn a_new_line_waits_in_the_last_slot() {
    let a = &cases::all()[0];
    let marked = Table { last: 2, ..a.table };
    let (_, waiting) = admit(&marked, &a.request).expect("case A");
    assert_eq!((waiting.last, waiting.slots[2].is_waiting()), (2, true));
    let (ticks, removed) = leave(&waiting, 2).expect("a line");
    assert_eq!((ticks, removed.last), (0, NONE));
}

/// R17, R48: a step over the boundary that is refused, and leaves every byte as it was.
fn refuses(table: &Table, number: u64, place: u64) {
    let mut desk = Desk::new();
    desk.image.replace(&image::bytes(table));
    let before = desk.clone();
    assert_eq!(should(&Act::Step, &mut desk), Told::refused(number, place));
    assert_eq!(desk, before);
}

/// R35, R24 with both its parts and R34, after each number. R34: who ran last decides which of two lines ends short.
#[test]
fn refused_steps() {
    for last in 0..=u8::MAX {
        let sound = after(last, &equal_ends());
        let clock = LAST_TICK;
        refuses(&Table { clock, ..sound }, 15, 0);
        let mut unsound = sound;
        unsound.slots[11] = waits([1, 4, 0]);
        refuses(&unsound, 4, 11);
        let mut over = sound;
        over.counts.idle = 10;
        refuses(&over, 4, 0);
        let short = after(last, &[(3, runs([1, 4, 3, 1])), (7, runs([1, 4, 3, 1]))]);
        refuses(&short, 14, if last == 7 { 3 } else { 7 });
        assert_eq!(step(&sound).map(|_| ()), Ok(()));
    }
}

/// R4, R105: no number is a fault, and with each that names none a table is stepped as the empty one is.
#[test]
fn any_number_is_taken() {
    assert_eq!(EMPTY.last, NONE);
    for last in 0..=u8::MAX {
        let empty = Table { last, ..EMPTY };
        assert_eq!(step(&empty), step(&EMPTY));
        assert_eq!(ask(&empty, &ZEROS), refused(6, 0));
        assert_eq!(leave(&empty, last.into()), refused(16, last.into()));
    }
}

/// Two lines of the same period, which fill the pump, for 8 ticks; then the first is stretched for a line of one tick in four.
///
/// By R44 slot 1 goes on at 6 and 7, and is owed 2 ticks by 12; with 1 of the new line, started at 8, that is 3 of 4. With equal ends to the
/// lowest slot, slot 0 had 6 and 7, and slot 1 is owed 4 by 12, which is all the time: the new line may want its first tick by 13.
#[test]
fn another_start_by_the_other_rule() {
    let (begun, _) = cases::row(0, &[(2, 6, 6, 0, 2), (4, 6, 6, 0, 4)], (1, 1));
    let mut request = Request {
        need: 1,
        period: 4,
        ..ZEROS
    };
    request.stretched[..2].copy_from_slice(&[24, 6]);
    let (ran, now) = stepped(begun, 8);
    assert_eq!(ran, [0, 0, 1, 1, 1, 1, 1, 1].map(Some));
    assert_eq!(now.slots[..2], [runs([2, 6, 2, 2]), runs([4, 6, 2, 2])]);
    assert_eq!(ask(&now, &request), Ok(8));
    let before = published::at(&begun, 8);
    assert_eq!(before.slots[..2], [runs([2, 6, 2, 0]), runs([4, 6, 2, 4])]);
    assert_eq!(ask(&before, &request), Ok(9));
}
