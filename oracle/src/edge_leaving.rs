//! Tables of which a line leaves (R99), on both sides of a limit, and beside the same with every line renewing. The answers are
//! worked out by hand from docs/RULES.md.

use crate::cases::{case, late, refused, Case, Line, LAST_CLOCK};

/// R5: a sound line; R25: with a T' a tick below its T, and a tick above.
const SOUND: Line = (1, 16, 16, 0, 1);
const SHRUNK: Line = (1, 16, 15, 0, 1);
const LONGER: Line = (1, 16, 17, 0, 1);

/// R9, R10: one end, and what is owed by then is wanted for good.
fn demands() -> Vec<Case> {
    let (three, four) = ((1, 3), (1, 4));
    // By 2 the first line wants 2 ticks, and by 4 the second line 2 more: that is all the time. Started at 0, the new line would
    // want a tick by 4 too. If the first line's ticks were wanted no more once it is gone, a start at 0 would do.
    let owed = [(2, 8, 8, 6, 2), (2, 8, 8, 4, 2), (4, 16, 16, 0, 0)];
    // By 3 both first lines want all the time, so that the new line may want its tick by 4 at the soonest; but if the first line
    // renews it wants that tick itself, and the new one may have the next.
    let next = [(1, 3, 3, 2, 1), (2, 24, 24, 21, 2), (5, 12, 24, 1, 1)];
    // R67, case E: up to 52 the first line wants 3 ticks if it renews, and 1 if it leaves; with the second line's 8 and, started
    // at 40, the new line's 3 that is 14 or 12.
    let e = [(1, 4, 4, 0, 1), (16, 64, 64, 52, 8), (16, 32, 64, 12, 0)];
    vec![
        case("wanted for good", 0, &owed, four, Ok(1)).leaving(&[0]),
        case("wanted for good, all", 0, &owed, four, Ok(1)).leaving(&[0, 1, 2]),
        case("one end", 0, &next, three, Ok(1)).leaving(&[0]),
        case("more ends", 0, &next, three, Ok(2)),
        case("E, its first line", 40, &e, four, Ok(40)).leaving(&[0]),
        case("E, its second line", 40, &e, four, Ok(45)).leaving(&[1]),
    ]
}

/// R99: a line that leaves counts as any other, up to the last clock: cases F to L, and slots.
fn as_any_other() -> Vec<Case> {
    let (half, four) = ([(8, 16, 16, 0, 8)], (1, 4));
    let owed = |c| [(5, 20, 20, 17, c), (10, 20, 20, 0, 0)];
    let most = [(1, 64, 64, 0, 1)];
    let at = |name, lines: &[Line], new, answer| case(name, 0, lines, new, answer).leaving(&[0]);
    let last = LAST_CLOCK;
    vec![
        at("F", &[(4, 8, 8, 4, 2)], (1, 2), Ok(0)),
        at("G", &[(4, 8, 8, 4, 3)], (1, 2), refused(9, 0)),
        at("H", &half, (8, 16), Ok(0)),
        at("I", &half, (9, 16), refused(8, 0)),
        at("J", &owed(5), four, late(3, 2)),
        at("J, in time", &owed(3), four, Ok(0)),
        at("K", &most, (1, 15_625), Ok(0)),
        at("L", &most, (1, 15_629), refused(7, 0)),
        at("fifteen", &[SOUND; 15], (1, 16), Ok(0)),
        at("sixteen", &[SOUND; 16], (1, 16), refused(2, 0)),
        at("a = T - 1", &[(8, 16, 16, 15, 0)], four, Ok(0)),
        at("a = T", &[(8, 16, 16, 16, 0)], four, refused(4, 0)),
        at("c = C + 1", &[(8, 16, 16, 0, 9)], four, refused(4, 0)),
        case("last clock", last, &half, four, Ok(last)).leaving(&[0]),
        case("clock over", last + 1, &half, four, refused(1, 0)).leaving(&[0]),
    ]
}

/// R25: the period of a line that leaves is kept.
fn periods() -> Vec<Case> {
    let at =
        |name, lines: &[Line], slots, answer| case(name, 9, lines, (1, 4), answer).leaving(slots);
    let longest = (1, 16, 65_535, 0, 1);
    vec![
        at("T' = T, leaving", &[SOUND], &[0], Ok(9)),
        at("T' = T + 1, renewing", &[LONGER], &[], Ok(9)),
        at("T' = T + 1, leaving", &[LONGER], &[0], refused(5, 0)),
        at("T' = T - 1, leaving", &[SHRUNK], &[0], refused(5, 0)),
        at(
            "T' = 2 T, leaving",
            &[(1, 16, 32, 0, 1)],
            &[0],
            refused(5, 0),
        ),
        at("T' = 0, leaving", &[(1, 16, 0, 0, 1)], &[0], refused(5, 0)),
        at("T' = 65,535, leaving", &[longest], &[0], refused(5, 0)),
    ]
}

/// R18, R19: the lowest slot of both breaches of R25, and that ground beside its neighbours.
fn order() -> Vec<Case> {
    let (four, more) = ((1, 4), (6, 5));
    let at =
        |name, lines: &[Line], slots, answer| case(name, 9, lines, four, answer).leaving(slots);
    let unsound = (1, 16, 17, 16, 0);
    let mixed = [SOUND, LONGER, LONGER, SHRUNK];
    vec![
        at("leaving below renewing", &mixed, &[0, 2], refused(5, 2)),
        at("leaving alone", &mixed[..3], &[0, 2], refused(5, 2)),
        at(
            "renewing below leaving",
            &[SOUND, SHRUNK, LONGER],
            &[2],
            refused(5, 1),
        ),
        at("neither", &[SOUND, LONGER, LONGER], &[0], Ok(9)),
        at("4 and 5, one line", &[SOUND, unsound], &[1], refused(4, 1)),
        at("4 above 5", &[LONGER, unsound], &[0], refused(4, 1)),
        at("5, not 4", &[LONGER, SOUND], &[0], refused(5, 0)),
        case("5 and 6", 9, &[LONGER], more, refused(5, 0)).leaving(&[0]),
        case("6, not 5", 9, &[SOUND], more, refused(6, 0)).leaving(&[0]),
    ]
}

/// Every row with its answer.
pub fn rows() -> Vec<Case> {
    [demands(), as_any_other(), periods(), order()]
        .into_iter()
        .flatten()
        .collect()
}
