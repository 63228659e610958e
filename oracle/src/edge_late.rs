//! Tables whose running lines alone come too late (R30), with the first tick that is short, and by how much (R103): beside the same
//! in time, at every clock, in every order of the slots. The answers are worked out by hand from docs/RULES.md.
//!
//! A line that owes nothing at age 0 keeps the sum of R29 low: the others may be behind by as much as its need.

use crate::cases::{case, late, refused, Case, Line, LAST_CLOCK};

/// Such a line, half of the pump.
const SPARE: Line = (10, 20, 20, 0, 0);

/// R103: the tick is absolute: 4 ticks are owed within 3, at any clock. A tick less is in time; then the new line, which wants its
/// first tick by 4, fits from the clock on.
fn clocks() -> Vec<Case> {
    let owed = |c| [(4, 20, 20, 17, c), SPARE];
    let at = |name, clock, answer| case(name, clock, &owed(4), (1, 4), answer);
    let last = LAST_CLOCK;
    vec![
        at("late at 0", 0, late(3, 1)),
        at("late at 1", 1, late(4, 1)),
        at("late at 100", 100, late(103, 1)),
        at("late by 2^32", (1 << 32) - 1, late((1 << 32) + 2, 1)),
        at("late at the last clock", last, late(last + 3, 1)),
        at("late, and 1", last + 1, refused(1, 0)),
        case("in time at 100", 100, &owed(3), (1, 4), Ok(100)),
    ]
}

/// R103: at 3 the one line wants 5 ticks, and at 7 both want 11. The first in time is said, in whichever slot it is, though the
/// excess is greater later. With 3 ticks owed at 3 that end is in time, and at 7 both want 9.
fn orders() -> Vec<Case> {
    let (later, spare) = ((6, 20, 20, 13, 6), (15, 40, 40, 0, 0));
    let soon = |c| (5, 20, 20, 17, c);
    let at = |name, lines: &[Line], answer| case(name, 0, lines, (1, 40), answer);
    vec![
        at("the later end below", &[later, soon(5), spare], late(3, 2)),
        at("the sooner end below", &[soon(5), later, spare], late(3, 2)),
        at("both above", &[spare, later, soon(5)], late(3, 2)),
        at("the later end alone", &[later, soon(3), spare], late(7, 2)),
    ]
}

/// R9: the ends are those at T'. At its T the line would end at 3, and be short by 5; at its T' it ends at 7, and is by 1.
fn periods() -> Vec<Case> {
    let at = |name, stretched, c, answer| {
        let lines = [(8, 20, stretched, 17, c), SPARE];
        case(name, 0, &lines, (1, 24), answer)
    };
    vec![
        at("late at T'", 24, 8, late(7, 1)),
        at("late at T", 20, 8, late(3, 5)),
        at("in time at T'", 24, 7, Ok(0)),
        at("late at T, a tick less", 20, 7, late(3, 4)),
    ]
}

/// R10, R12: all that is wanted by then.
fn sums() -> Vec<Case> {
    // 5 ticks within 4. With 4 no tick is left by then, so that the new line can have its first by 5, and starts a tick later.
    let both = |c| [(3, 20, 20, 16, c), (2, 20, 20, 16, 2), SPARE];
    // By 1 the first line wants a tick and by 6 four more, of which the second line, which ends at 5, leaves it two.
    let again = [(4, 5, 5, 4, 1), (3, 60, 60, 55, 3), (6, 60, 60, 0, 0)];
    // 4 ticks within 3; by 12 they are 9, and by 14 they are 18. With a tick less at 3 the first that is short is 14.
    let rising = |c| {
        [
            (4, 20, 20, 17, c),
            (5, 20, 20, 8, 5),
            (9, 20, 20, 6, 9),
            (16, 200, 200, 0, 0),
        ]
    };
    vec![
        case("two ends at once", 50, &both(3), (1, 4), late(54, 1)),
        case("at once, in time", 50, &both(2), (1, 4), Ok(51)),
        case("a second end", 50, &again, (1, 60), late(56, 2)),
        case("no second end", 50, &again, (1, 60), Ok(50)).leaving(&[0]),
        case("late, in time, late", 0, &rising(4), (1, 100), late(3, 1)),
        case("late at last", 0, &rising(3), (1, 100), late(14, 3)),
    ]
}

/// R10, R99: the end of a line that leaves is one like any other, and what it was owed is wanted for good: by 7 the second line wants 5
/// ticks of the 4 that are left.
fn leaving() -> Vec<Case> {
    let owed = |c| [(5, 20, 20, 17, c), SPARE];
    let gone = [(3, 20, 20, 17, 3), (5, 20, 20, 13, 5), SPARE];
    vec![
        case("leaving, late", 9, &owed(5), (1, 4), late(12, 2)).leaving(&[0]),
        case("all leaving, late", 9, &owed(4), (1, 4), late(12, 1)).leaving(&[0, 1]),
        case("late when it is gone", 9, &gone, (1, 20), late(16, 1)).leaving(&[0]),
    ]
}

/// R12: 2 × 32,767 of 65,535 and 1 for the new line are all of the pump. With e for the excess at t, U for the shares of the lines that
/// have ended by then, and S for the needs of all, R10 and R29 give 2 × e ≤ S − 2 × t × (1 − U), and R28 gives S ≤ 65,534: no excess is
/// greater than this one.
fn greatest() -> Vec<Case> {
    let owed = |c| {
        [
            (32_767, 65_535, 65_535, 65_534, c),
            (32_767, 65_535, 65_535, 0, 0),
        ]
    };
    let (new, last) = ((1, 65_535), LAST_CLOCK);
    vec![
        case(
            "the greatest excess",
            0,
            &owed(32_767),
            new,
            late(1, 32_766),
        ),
        case(
            "the longest line",
            last,
            &owed(32_767),
            new,
            late(last + 1, 32_766),
        ),
        case("one of its ticks", 0, &owed(1), new, Ok(0)),
    ]
}

/// R18: the same lines are late, and another ground comes first: none of them says by how much.
fn order() -> Vec<Case> {
    let owed = [(5, 20, 20, 17, 5), SPARE];
    let (mut unsound, mut shrunk) = (owed, owed);
    (unsound[1].4, shrunk[1].2) = (11, 19);
    let at = |name, lines: &[Line], new, answer| case(name, 7, lines, new, answer);
    vec![
        at("4 before 10", &unsound, (1, 4), refused(4, 1)),
        at("5 before 10", &shrunk, (1, 4), refused(5, 1)),
        at("6 before 10", &owed, (0, 4), refused(6, 0)),
        at("7 before 10", &owed, (1, 50_021), refused(7, 0)),
        at("8 before 10", &owed, (6, 20), refused(8, 0)),
        at("9 before 10", &owed[..1], (1, 4), refused(9, 0)),
        at("10, all of the pump", &owed, (5, 20), late(10, 2)),
    ]
}

/// Every row with its answer.
pub fn rows() -> Vec<Case> {
    [
        clocks(),
        orders(),
        periods(),
        sums(),
        leaving(),
        greatest(),
        order(),
    ]
    .into_iter()
    .flatten()
    .collect()
}
