//! Cards on both sides of a limit of their form, byte by byte, with the line of each worked out by
//! hand from docs/RULES.md.

/// A card, its bytes and its line.
pub struct EdgeCard {
    pub name: &'static str,
    pub bytes: Vec<u8>,
    pub line: &'static str,
}

fn edge(name: &'static str, parts: &[&[u8]], line: &'static str) -> EdgeCard {
    EdgeCard {
        name,
        bytes: parts.concat(),
        line,
    }
}

/// R53: a clock of 116,940,353,646,111 and numbers of which no two bytes are equal; only the clock's
/// upper two bytes, which are 0 wherever asking is possible, are.
const CLOCK: &[u8] = b"CK\x1F\x2E\x3D\x4C\x5B\x6A\x00\x00";
/// (3254, 3442, 5720, 2521, 3021), and the same with age and remaining exchanged.
const FIRST: &[u8] = b"TB\xB6\x0C\x72\x0D\x58\x16\xD9\x09\xCD\x0B";
const FIRST_BACK: &[u8] = b"TB\xB6\x0C\x72\x0D\x58\x16\xCD\x0B\xD9\x09";
/// (2127, 9927, 13860, 898, 757); age and remaining exchanged; T and T' exchanged.
const SECOND: &[u8] = b"TB\x4F\x08\xC7\x26\x24\x36\x82\x03\xF5\x02";
const SECOND_BACK: &[u8] = b"TB\x4F\x08\xC7\x26\x24\x36\xF5\x02\x82\x03";
const SECOND_SHRUNK: &[u8] = b"TB\x4F\x08\x24\x36\xC7\x26\x82\x03\xF5\x02";
/// (491, 1848), and exchanged.
const ASKED: &[u8] = b"RQ\xEB\x01\x38\x07";
const ASKED_BACK: &[u8] = b"RQ\x38\x07\xEB\x01";
const FREE: &[u8] = b"TF";
/// R58: both lines as the third generation wrote them, remaining before age; and merely marked so.
const OLD: &[u8] = b"TA\xB6\x0C\x72\x0D\x58\x16\xCD\x0B\xD9\x09";
const SECOND_OLD: &[u8] = b"TA\x4F\x08\xC7\x26\x24\x36\xF5\x02\x82\x03";
const MARKED: &[u8] = b"TA\xB6\x0C\x72\x0D\x58\x16\xD9\x09\xCD\x0B";
const SECOND_MARKED: &[u8] = b"TA\x4F\x08\xC7\x26\x24\x36\x82\x03\xF5\x02";
/// R53: both lines with T' for their T, and leaving; age and remaining exchanged; and the first merely marked, with its T.
const LEAVING: &[u8] = b"TL\xB6\x0C\x58\x16\x58\x16\xD9\x09\xCD\x0B";
const LEAVING_BACK: &[u8] = b"TL\xB6\x0C\x58\x16\x58\x16\xCD\x0B\xD9\x09";
const SECOND_LEAVING: &[u8] = b"TL\x4F\x08\x24\x36\x24\x36\x82\x03\xF5\x02";
const STRETCHED: &[u8] = b"TL\xB6\x0C\x72\x0D\x58\x16\xD9\x09\xCD\x0B";

/// What the card of both lines says, and what it says with age and remaining exchanged; `numbers` works it out.
const SAID: &str = "release 116940353647775\n";
const EXCHANGED: &str = "release 116940353647275\n";

/// The card of these two lines and the request, an empty slot before each of them.
fn of_lines(
    name: &'static str,
    first: &'static [u8],
    second: &'static [u8],
    line: &'static str,
) -> EdgeCard {
    edge(name, &[CLOCK, FREE, first, FREE, second, ASKED], line)
}

/// R52, R53: every number in its place, its lower byte first.
///
/// With t0 for the clock, the first line ends at t0 + 5720 − 2521 = t0 + 3199 and has 178 ticks to spare
/// there, fewer than the new line's need. So the new line's own first end comes later, and by then
/// 3021 + 491 ticks are wanted: the start is t0 + 3512 − 1848. Exchanged, 2521 is owed in place of 3021
/// and the spare is the same: 500 ticks earlier.
fn numbers() -> Vec<EdgeCard> {
    let between = [CLOCK, FREE, FIRST, FREE, SECOND, ASKED];
    let (mut back, mut shrunk, mut asked) = (between, between, between);
    (back[2], back[4]) = (FIRST_BACK, SECOND_BACK);
    shrunk[4] = SECOND_SHRUNK;
    asked[5] = ASKED_BACK;
    let (mut late, mut later) = (between, between);
    late[0] = b"CK\x1F\x2E\x3D\x4C\x5B\x6A\x01\x00";
    later[0] = b"CK\x1F\x2E\x3D\x4C\x5B\x6A\x00\x01";
    vec![
        edge("all different", &between, SAID),
        edge("age and remaining", &back, EXCHANGED),
        edge("T and T'", &shrunk, "refused 5 3\n"),
        edge("Cn and Tn", &asked, "refused 6 0\n"),
        edge("seventh byte of the clock", &late, "refused 1 0\n"),
        edge("eighth byte of the clock", &later, "refused 1 0\n"),
    ]
}

/// R57, R58: the mark TA in each place, whole and cut.
///
/// The first line alone is behind its share: 3021 − 3254 + 3254 × 2521 / 5720 is above 0 (R29). Of sixteen
/// lines none leaves a slot (R22).
fn old_marks() -> Vec<EdgeCard> {
    let fifteen = FIRST.repeat(15);
    let sixteen = FIRST.repeat(16);
    let no_clock = [b"TA", &CLOCK[2..], FIRST, ASKED];
    vec![
        edge("TA, whole", &[CLOCK, OLD, ASKED], "refused 9 0\n"),
        edge("TA, its mark only", &[CLOCK, b"TA"], "refused 11 10\n"),
        edge("TA, half its mark", &[CLOCK, b"T"], "refused 11 10\n"),
        edge(
            "TA after TB, cut",
            &[CLOCK, FIRST, &OLD[..11]],
            "refused 11 22\n",
        ),
        edge("TA for CK", &no_clock, "refused 11 0\n"),
        edge("TA alone", &[OLD], "refused 11 0\n"),
        edge(
            "sixteenth TA",
            &[CLOCK, &fifteen, OLD, ASKED],
            "refused 2 0\n",
        ),
        edge(
            "seventeenth TA",
            &[CLOCK, &sixteen, OLD, ASKED],
            "refused 11 202\n",
        ),
    ]
}

/// R54, R55, R57: the longest card, a byte more, and the ends of each kind of record.
fn lengths() -> Vec<EdgeCard> {
    // (1, 64, 64, 0, 1) fifteen times and (1, 4): no start is later than the clock.
    let light = b"TB\x01\x00\x40\x00\x40\x00\x00\x00\x01\x00";
    let quarter = b"RQ\x01\x00\x04\x00";
    let (fifteen, sixteen) = (light.repeat(15), light.repeat(16));
    let eight = b"CK\x08\x00\x00\x00\x00\x00\x00\x00";
    vec![
        edge("196 bytes", &[eight, &fifteen, quarter], "release 8\n"),
        edge("208 bytes", &[eight, &sixteen, quarter], "refused 2 0\n"),
        edge(
            "209 bytes",
            &[eight, &sixteen, quarter, b"\x00"],
            "refused 11 208\n",
        ),
        edge("nothing", &[], "refused 11 0\n"),
        edge("nine bytes", &[&eight[..9]], "refused 11 0\n"),
        edge("ten bytes", &[eight], "refused 11 10\n"),
        edge("TB cut", &[eight, light, &light[..11]], "refused 11 22\n"),
        edge("RQ cut", &[eight, light, &quarter[..5]], "refused 11 22\n"),
        edge("RQ whole", &[eight, light, quarter], "release 8\n"),
        edge(
            "byte after RQ",
            &[eight, light, quarter, b"R"],
            "refused 11 28\n",
        ),
        edge(
            "TF before RQ",
            &[eight, light, FREE, quarter],
            "refused 11 24\n",
        ),
        edge(
            "TF before TB",
            &[eight, FREE, light, quarter],
            "release 8\n",
        ),
    ]
}

/// R58: the card of `numbers` with lines of either order. Each says the same, or, its records merely marked,
/// what it says there with age and remaining exchanged. Were the first of two TA records alone read in the
/// old order, the sum of R29 would be 1201 − 1113 and the card refused.
fn mixed_orders() -> Vec<EdgeCard> {
    vec![
        of_lines("TA and TB", OLD, SECOND, SAID),
        of_lines("TB and TA", FIRST, SECOND_OLD, SAID),
        of_lines("TA and TA", OLD, SECOND_OLD, SAID),
        of_lines("TA and TA, marks only", MARKED, SECOND_MARKED, EXCHANGED),
        of_lines("TA as TB", FIRST_BACK, SECOND_MARKED, EXCHANGED),
    ]
}

/// R57, R58: cards with TA, whole and broken where TB would be.
fn old_forms() -> Vec<EdgeCard> {
    // (1, 64, 64, 5, 0) and (1, 4): no start is later than the clock. With 0 for its age and 5 remaining the
    // line would be unsound (R24).
    let light = b"TA\x01\x00\x40\x00\x40\x00\x00\x00\x05\x00";
    let quarter = b"RQ\x01\x00\x04\x00";
    let eight = b"CK\x08\x00\x00\x00\x00\x00\x00\x00";
    // R67: case A's lines, (8, 16, 32, 8, 0) and (8, 16, 16, 8, 8).
    let first = b"TB\x08\x00\x10\x00\x20\x00\x08\x00\x00\x00";
    let equal = b"TA\x08\x00\x10\x00\x10\x00\x08\x00\x08\x00";
    let (fifteen, sixteen) = (light.repeat(15), light.repeat(16));
    vec![
        edge(
            "TA, age and remaining equal",
            &[eight, first, equal, quarter],
            "release 13\n",
        ),
        edge("fifteen TA", &[eight, &fifteen, quarter], "release 8\n"),
        edge("sixteen TA", &[eight, &sixteen, quarter], "refused 2 0\n"),
        edge(
            "seventeen TA",
            &[eight, &sixteen, light, quarter],
            "refused 11 202\n",
        ),
        edge("TA after TF", &[eight, FREE, light, quarter], "release 8\n"),
        edge(
            "TF after TA",
            &[eight, light, FREE, quarter],
            "refused 11 24\n",
        ),
        edge("TA, then nothing", &[eight, light], "refused 11 22\n"),
        edge(
            "TA after TA, a byte short",
            &[eight, light, &light[..11]],
            "refused 11 22\n",
        ),
        // The R of RQ is taken for the record's last byte, and no mark begins with Q.
        edge(
            "TA a byte short, then RQ",
            &[eight, light, &light[..11], quarter],
            "refused 11 34\n",
        ),
    ]
}

/// R53: the card of `numbers` with lines that leave. The start lies between the first ends, so that it is the same.
fn leaving_numbers() -> Vec<EdgeCard> {
    vec![
        of_lines("TL and TB", LEAVING, SECOND, SAID),
        of_lines("TL and TA", LEAVING, SECOND_OLD, SAID),
        of_lines("TB and TL", FIRST, SECOND_LEAVING, SAID),
        of_lines("TA and TL", OLD, SECOND_LEAVING, SAID),
        of_lines("TL and TL", LEAVING, SECOND_LEAVING, SAID),
        of_lines("TL, exchanged", LEAVING_BACK, SECOND_BACK, EXCHANGED),
        of_lines("TL, T' longer", STRETCHED, SECOND, "refused 5 1\n"),
    ]
}

/// R57: the mark TL in each place, whole and cut, as TA in `old_marks`; the first line alone is behind its share (R29).
fn leaving_marks() -> Vec<EdgeCard> {
    let (fifteen, sixteen) = (FIRST.repeat(15), FIRST.repeat(16));
    let no_clock = [b"TL", &CLOCK[2..], FIRST, ASKED];
    let card = |name, records: &[&[u8]], line| edge(name, &[&[CLOCK], records].concat(), line);
    vec![
        card("TL, whole", &[LEAVING, ASKED], "refused 9 0\n"),
        card("TL, its mark only", &[b"TL"], "refused 11 10\n"),
        card("TL, then nothing", &[LEAVING], "refused 11 22\n"),
        card("TL, cut", &[FIRST, &LEAVING[..11]], "refused 11 22\n"),
        card("TF after TL", &[LEAVING, FREE, ASKED], "refused 11 24\n"),
        edge("TL for CK", &no_clock, "refused 11 0\n"),
        edge("TL alone", &[LEAVING], "refused 11 0\n"),
        card(
            "the sixteenth TL",
            &[&fifteen, LEAVING, ASKED],
            "refused 2 0\n",
        ),
        card(
            "the seventeenth TL",
            &[&sixteen, LEAVING, ASKED],
            "refused 11 202\n",
        ),
        card(
            "the seventeenth TL, cut",
            &[&sixteen, b"TL"],
            "refused 11 202\n",
        ),
    ]
}

/// R55: cards of light lines that leave, (1, 64, 64, 0, 1), with (1, 4): no start is later than the clock.
fn leaving_lengths() -> Vec<EdgeCard> {
    let light: &[u8] = b"TL\x01\x00\x40\x00\x40\x00\x00\x00\x01\x00";
    let (fifteen, sixteen) = (light.repeat(15), light.repeat(16));
    let eight: &[u8] = b"CK\x08\x00\x00\x00\x00\x00\x00\x00";
    let quarter: &[u8] = b"RQ\x01\x00\x04\x00";
    let card =
        |name, records: &[&[u8]], line| edge(name, &[&[eight], records, &[quarter]].concat(), line);
    vec![
        card("one TL", &[light], "release 8\n"),
        card("TL after TF", &[FREE, light], "release 8\n"),
        card("fifteen TL", &[&fifteen], "release 8\n"),
        card("sixteen TL", &[&sixteen], "refused 2 0\n"),
        card("seventeen TL", &[&sixteen, light], "refused 11 202\n"),
        // The R of RQ is taken for the record's last byte, and no mark begins with Q.
        card(
            "TL a byte short, then RQ",
            &[&light[..11]],
            "refused 11 22\n",
        ),
    ]
}

/// R61, R103: lines of refusal 10. R67: case J's first line, which is owed 5 ticks within 3, and the second, which owes nothing.
/// They stand by themselves too.
pub fn late() -> Vec<EdgeCard> {
    let j: &[u8] = b"TB\x05\x00\x14\x00\x14\x00\x11\x00\x05\x00";
    let old: &[u8] = b"TA\x05\x00\x14\x00\x14\x00\x05\x00\x11\x00";
    let leaving: &[u8] = b"TL\x05\x00\x14\x00\x14\x00\x11\x00\x05\x00";
    let spare: &[u8] = b"TB\x0A\x00\x14\x00\x14\x00\x00\x00\x00\x00";
    let zero: &[u8] = b"CK\x00\x00\x00\x00\x00\x00\x00\x00";
    // A clock of 2^48 − 65,536.
    let last: &[u8] = b"CK\x00\x00\xFF\xFF\xFF\xFF\x00\x00";
    let quarter: &[u8] = b"RQ\x01\x00\x04\x00";
    // (32767, 65535, 65535, 65534, 32767) and (32767, 65535, 65535, 0, 0) with (1, 65535): no excess is greater (`edge_late.rs`).
    let most: &[u8] = b"TB\xFF\x7F\xFF\xFF\xFF\xFF\xFE\xFF\xFF\x7F";
    let idle: &[u8] = b"TB\xFF\x7F\xFF\xFF\xFF\xFF\x00\x00\x00\x00";
    let seldom: &[u8] = b"RQ\x01\x00\xFF\xFF";
    let said = "refused 10 0 3 2\n";
    let far = "refused 10 0 116940353646114 2\n";
    let longest = "refused 10 0 281474976645121 32766\n";
    vec![
        edge("10", &[zero, j, spare, quarter], said),
        edge("10, TA", &[zero, old, spare, quarter], said),
        edge("10, TL", &[zero, leaving, spare, quarter], said),
        edge("10, turned", &[zero, spare, FREE, j, quarter], said),
        edge("10, clock", &[CLOCK, j, spare, quarter], far),
        edge("10, longest", &[last, most, idle, seldom], longest),
    ]
}

/// The cards with lines that leave. They stand by themselves, so that no card of the stored set moves.
pub fn leaving() -> Vec<EdgeCard> {
    let all = [leaving_numbers(), leaving_marks(), leaving_lengths()];
    all.into_iter().flatten().collect()
}

/// Every other card with its line.
pub fn all() -> Vec<EdgeCard> {
    [
        numbers(),
        old_marks(),
        lengths(),
        mixed_orders(),
        old_forms(),
    ]
    .into_iter()
    .flatten()
    .collect()
}

#[cfg(test)]
mod tests {
    use super::*;
    use std::collections::HashSet;

    #[test]
    fn no_two_bytes_of_the_numbers_are_equal() {
        let numbers = [&CLOCK[..8], FIRST, SECOND, ASKED].map(|record| &record[2..]);
        let bytes = numbers.concat();
        let different: HashSet<&u8> = bytes.iter().collect();
        assert_eq!((bytes.len(), different.len()), (30, 30));
        assert!(!different.contains(&0));
    }
}
