//! Tables on both sides of a limit, and tables in which two neighbouring grounds hold, beside the same
//! with the first fault mended. The answers are worked out by hand from docs/RULES.md.
//!
//! Most starts are the clock, for one reason: a line of age 0, and one that owes nothing, has at no tick
//! a demand above C / T' of the time gone by, so that with R28 passed the excess is never above 0.

use crate::cases::{self, case, late, refused, Case, Line, LAST_CLOCK};
use crate::edge_late;
use crate::edge_leaving;

/// R5: a sound line, and the same with one tick too many owed.
const SOUND: Line = (1, 16, 16, 0, 1);
const UNSOUND: Line = (1, 16, 16, 0, 2);
/// R25: the sound line with a T' below its T.
const SHRUNK: Line = (1, 16, 15, 0, 1);

/// A line of need 1 at the beginning of its period.
const fn one_in(period: u16) -> Line {
    (1, period, period, 0, 1)
}

/// R8, R27: 101 × 9,901 is 1,000,001, and 64 × 15,625 is 1,000,000 (case K, with the new line).
fn frames() -> Vec<Case> {
    let (new, half) = ((1, 9_901), (1, 2));
    let most = [one_in(64), one_in(15_625)];
    let over = [one_in(101), one_in(9_901)];
    let stretched = [(1, 100, 101, 0, 1)];
    vec![
        case("frame 990,100", 0, &[one_in(100)], new, Ok(0)),
        case("frame 1,000,001", 0, &[one_in(101)], new, refused(7, 0)),
        case("1,000,001 by T'", 0, &stretched, new, refused(7, 0)),
        case("1,000,000, lines alone", 5, &most, half, Ok(5)),
        case("1,000,001, lines alone", 5, &over, (1, 101), refused(7, 0)),
    ]
}

/// R7, R21: the last clock at which an empty table is asked, and the next.
fn clocks() -> Vec<Case> {
    let (last, over) = (LAST_CLOCK, LAST_CLOCK + 1);
    vec![
        case("last clock, empty", last, &[], (2, 4), Ok(last)),
        case("clock over, empty", over, &[], (2, 4), refused(1, 0)),
    ]
}

/// R5, R24: each part of soundness broken alone, and R25 at a T' of 0.
fn lines() -> Vec<Case> {
    let (half, quarter) = ((1, 2), (1, 4));
    let at = |name, line, new, answer| case(name, 3, &[line], new, answer);
    vec![
        at("c = C", (4, 8, 8, 0, 4), half, Ok(3)),
        at("c = C + 1", (4, 8, 8, 0, 5), half, refused(4, 0)),
        at("C = 1", (1, 8, 8, 0, 0), half, Ok(3)),
        at("C = 0", (0, 8, 8, 0, 0), half, refused(4, 0)),
        at("C = T", (8, 8, 16, 0, 8), quarter, Ok(3)),
        at("C = T + 1", (9, 8, 16, 0, 8), quarter, refused(4, 0)),
        at("a = T - 1, T' longer", (8, 16, 32, 15, 0), half, Ok(3)),
        at("a = T, T' longer", (8, 16, 32, 16, 0), half, refused(4, 0)),
        at("a line of zeros", (0, 0, 0, 0, 0), half, refused(4, 0)),
        at("T' = T", (1, 8, 8, 0, 1), half, Ok(3)),
        at("T' = 0", (1, 8, 0, 0, 1), half, refused(5, 0)),
    ]
}

/// R18, R19: two grounds hold at once, and then the second alone. R23 cannot stand on a card.
fn order() -> Vec<Case> {
    let (four, last) = ((1, 4), LAST_CLOCK);
    let mut full = [SOUND; 16];
    let mut all = vec![
        case("1 and 2", last + 1, &full, four, refused(1, 0)),
        case("2, not 1", last, &full, four, refused(2, 0)),
    ];
    (full[2], full[5]) = (UNSOUND, UNSOUND);
    all.push(case("2 and 4", 0, &full, four, refused(2, 0)));
    all.push(case("4, not 2", 0, &full[..15], four, refused(4, 2)));
    let both = [SOUND, SHRUNK, UNSOUND, SHRUNK, UNSOUND];
    let shrunk = [SOUND, SHRUNK, SOUND, SHRUNK, SOUND];
    all.push(case("4 and 5", 0, &both, four, refused(4, 2)));
    all.push(case("5, not 4", 0, &shrunk, four, refused(5, 1)));
    let more = (6, 5);
    all.push(case("5 and 6", 0, &shrunk, more, refused(5, 1)));
    all.push(case("6, not 5", 0, &[SOUND; 5], more, refused(6, 0)));
    let (over, within) = ([one_in(101)], [one_in(100)]);
    let (more, whole) = ((9_902, 9_901), (9_901, 9_901));
    all.push(case("6 and 7", 0, &over, more, refused(6, 0)));
    all.push(case("7 and 8, not 6", 0, &over, whole, refused(7, 0)));
    all.push(case("8, not 7", 0, &within, whole, refused(8, 0)));
    all
}

/// R16, R28, R29, R30: the sums and the excess at their limits, and the order of these grounds.
fn sums() -> Vec<Case> {
    let at = |name, lines: &[Line], new, answer| case(name, 7, lines, new, answer);
    // 1/2 and 9/16 or 8/16; and 3 − 4 + 4 × 4/8 = 1.
    let behind = [(4, 8, 8, 4, 3)];
    // 5 × 17/20 alone is above 0, with −10 it is not; and 5, 4 or 3 ticks are owed within 3, by tick 10. With 3
    // the new line fits from the clock on: at its first end 3 + 1 ticks are wanted in 4.
    let owed = |c| [(5, 20, 20, 17, c), (10, 20, 20, 0, 0)];
    // 57 × 15,625 + 1,709 × 64 is 1,000,001; with 1,708 it is 999,937.
    let most = [(57, 64, 64, 0, 57)];
    // (2 − 3) + 3 × 19/64 + a/15,625 is a millionth above 0 for 1,709, and below 0 for 1,708; the new
    // line wants half the time, and the others far less than the other half.
    let behind_by = |a| [(3, 64, 64, 19, 2), (1, 15_625, 15_625, a, 1)];
    let (four, half) = ((1, 4), (1, 2));
    vec![
        at("8 and 9", &behind, (9, 16), refused(8, 0)),
        at("9, not 8", &behind, (8, 16), refused(9, 0)),
        at("9 and 10", &owed(5)[..1], four, refused(9, 0)),
        at("10, not 9", &owed(5), four, late(10, 2)),
        at("excess 1", &owed(4), four, late(10, 1)),
        at("excess 0", &owed(3), four, Ok(7)),
        at("a millionth over", &most, (1_709, 15_625), refused(8, 0)),
        at("just enough", &most, (1_708, 15_625), Ok(7)),
        at("a millionth late", &behind_by(1_709), half, refused(9, 0)),
        at("just in time", &behind_by(1_708), half, Ok(7)),
    ]
}

/// Every row with its answer.
pub fn rows() -> Vec<Case> {
    [frames(), clocks(), lines(), order(), sums()]
        .into_iter()
        .flatten()
        .collect()
}

/// Every row that has its answer beside it: the cases, these edges, those of lines that leave, and those of lines that are late.
pub fn stated() -> impl Iterator<Item = Case> {
    let edges = rows().into_iter().chain(edge_leaving::rows());
    let edges = edges.chain(edge_late::rows());
    cases::all().into_iter().chain(edges)
}
