//! The sample cards: cases A to M, cards of the old order, with lines that leave and with lines that are late, a broken card of each
//! kind, and a card for each refusal of ask that no case has. Refusal 3 has none, as a card carries no waiting line.

use crate::card;
use crate::cases::{self, letters, refused, row, Case, Line, CARD_A, LAST_CLOCK};
use crate::orders;
use crate::spoil::with_mark;
use crate::types::Refusal;

/// A card, and its answer worked out by hand from docs/RULES.md.
pub struct Sample {
    pub name: &'static str,
    pub bytes: Vec<u8>,
    pub answer: Result<u64, Refusal>,
}

fn sample(name: &'static str, bytes: Vec<u8>, number: u8, place: usize) -> Sample {
    let answer = refused(number, place);
    Sample {
        name,
        bytes,
        answer,
    }
}

fn card_of(clock: u64, lines: &[Line], new: (u16, u16)) -> Vec<u8> {
    let (table, request) = row(clock, lines, new);
    card::bytes(&table, &request)
}

/// R67: cases A to M.
fn cases() -> Vec<Sample> {
    let of = |case: Case| Sample {
        name: case.name,
        bytes: card::bytes(&case.table, &case.request),
        answer: case.answer,
    };
    letters().into_iter().map(of).collect()
}

/// R58: case A's card as the third generation wrote it, and with its second line alone written so.
fn old_orders() -> Vec<Sample> {
    let old = orders::old(&CARD_A);
    let mixed = [&CARD_A[..22], &old[22..]].concat();
    let of = |(name, bytes)| Sample {
        name,
        bytes,
        answer: Ok(13),
    };
    [("mixed-order", mixed), ("old-order", old)].map(of).into()
}

/// R53: a line that leaves, without which, or with its ticks wanted no more when it is gone, the start would be 0; and case E with
/// every mark, of which the start would be 45 if its first line renewed. `edge_leaving.rs` says why.
fn leaving() -> Vec<Sample> {
    let owed = [(2, 8, 8, 6, 2), (2, 8, 8, 4, 2), (4, 16, 16, 0, 0)];
    let e = [(1, 4, 4, 0, 1), (16, 64, 64, 52, 8), (16, 32, 64, 12, 0)];
    let first = with_mark(&card_of(0, &owed, (1, 4)), 10, b"TL");
    let e = with_mark(&card_of(40, &e, (1, 4)), 10, b"TL");
    let (before, last) = (&e[..34], &orders::old(&e)[34..]);
    let mixed = [&before[..22], b"TF", &before[22..], last].concat();
    let of = |(name, bytes, start)| Sample {
        name,
        bytes,
        answer: Ok(start),
    };
    [("leaving", first, 1), ("mixed-marks", mixed, 40)]
        .map(of)
        .into()
}

/// R103: at 103 the second line wants 5 ticks within 3, and at 107 both want 11 within 7: the first in time is said, though it is in the
/// higher slot and the excess is greater later.
fn late() -> Vec<Sample> {
    let lines = [(6, 20, 20, 13, 6), (5, 20, 20, 17, 5), (15, 40, 40, 0, 0)];
    vec![Sample {
        name: "late",
        bytes: card_of(100, &lines, (1, 40)),
        answer: cases::late(103, 2),
    }]
}

/// Equal lines with time to spare; R55: sixteen make the longest card.
fn equal_lines(lines: usize) -> Vec<u8> {
    card_of(0, &[(1, 64, 64, 0, 1); 16][..lines], (1, 64))
}

/// R57: case A's card with one fault of its form, its records at 0, 10, 22 and 34; and the full
/// card with its last line, of 12 bytes before the new line's 6, a second time.
fn broken() -> Vec<Sample> {
    let a = &CARD_A;
    let (before, asked) = a.split_at(34);
    let (first, second) = before.split_at(22);
    let full = equal_lines(16);
    let seventeenth = [&full[..202], &full[190..]].concat();
    let free = [before, b"TF", asked].concat();
    let misplaced = [first, &a[..10], second, asked].concat();
    let [cut_leaving, cut_old] = [b"TL", b"TA"].map(|mark| with_mark(&a[..30], 22, mark));
    vec![
        sample("broken-byte-after", [a, &b"\0"[..]].concat(), 11, 40),
        sample("broken-cut-leaving-record", cut_leaving, 11, 22),
        sample("broken-cut-old-record", cut_old, 11, 22),
        sample("broken-cut-record", a[..30].to_vec(), 11, 22),
        sample("broken-empty", Vec::new(), 11, 0),
        sample("broken-free-before-request", free, 11, 36),
        sample("broken-misplaced-mark", misplaced, 11, 22),
        sample("broken-no-clock", a[10..].to_vec(), 11, 0),
        sample("broken-seventeenth", seventeenth, 11, 202),
        sample("broken-unknown-mark", with_mark(a, 22, b"XX"), 11, 22),
    ]
}

/// Three lines with time to spare and a new line that fits, released at once: one changed number makes
/// each of the refused cards but the full one.
const FINE: [Line; 3] = [(1, 4, 4, 0, 1), (4, 16, 16, 4, 3), (4, 32, 64, 12, 0)];
const NEW: (u16, u16) = (1, 8);

/// R21, R22, R24, R25, R26: one fault each. A need above its period is above all of the pump too (R28);
/// of the others no second ground holds.
fn one_fault() -> Vec<Sample> {
    let late = card_of(LAST_CLOCK + 1, &FINE, NEW);
    let (mut unsound, mut shortened) = (FINE, FINE);
    // R5: an age of T. R25: a T' of T − 1, and one of 2 × T of a line that leaves.
    unsound[2].3 = 32;
    shortened[1].2 = 15;
    let stretched = with_mark(&card_of(40, &FINE, NEW), 34, b"TL");
    vec![
        sample("refused-1-late-clock", late, 1, 0),
        sample("refused-2-full", equal_lines(16), 2, 0),
        sample("refused-4-unsound", card_of(40, &unsound, NEW), 4, 2),
        sample("refused-5-leaving-stretched", stretched, 5, 2),
        sample("refused-5-shortened", card_of(40, &shortened, NEW), 5, 1),
        sample("refused-6-no-fit", card_of(40, &FINE, (9, 8)), 6, 0),
    ]
}

/// Every sample card.
pub fn all() -> Vec<Sample> {
    [
        cases(),
        old_orders(),
        leaving(),
        late(),
        broken(),
        one_fault(),
    ]
    .into_iter()
    .flatten()
    .collect()
}

#[cfg(test)]
mod tests {
    use super::*;
    use crate::rules;
    use crate::types::{Content, LONGEST_CARD};

    /// R53: where each number of a card of three lines begins.
    fn numbers() -> Vec<usize> {
        let lines = (10..46)
            .step_by(12)
            .flat_map(|line| [2, 4, 6, 8, 10].map(|at| line + at));
        [2].into_iter().chain(lines).chain([48, 50]).collect()
    }

    #[test]
    fn every_answer_is_the_stated_one() {
        for sample in all() {
            assert_eq!(card::judge(&sample.bytes), sample.answer, "{}", sample.name);
        }
    }

    #[test]
    fn the_names_say_the_refusal() {
        for sample in all() {
            let number = sample.answer.map_or_else(|refusal| refusal.number, |_| 0);
            let said = match sample.name.split('-').collect::<Vec<_>>()[..] {
                ["broken", ..] => number == 11,
                ["refused", said, ..] => said == number.to_string(),
                ["leaving"] | [_, "order" | "marks"] => number == 0,
                ["late"] => number == 10,
                _ => sample.name.len() == 1,
            };
            assert!(said, "{}", sample.name);
        }
    }

    #[test]
    fn the_cards_of_the_old_order_are_twins_of_card_a() {
        let slots = old_orders().into_iter().map(|sample| {
            assert_eq!(orders::twin(&sample.bytes), CARD_A, "{}", sample.name);
            orders::old_slots(&sample.bytes)
        });
        assert_eq!(slots.collect::<Vec<_>>(), [0b10, 0b11]);
    }

    /// R67, case E, and the table that `edge_leaving.rs` begins with.
    #[test]
    fn the_start_is_another_if_the_line_renews_or_is_not_there() {
        let answers = leaving().into_iter().map(|sample| {
            let renewing = with_mark(&sample.bytes, 10, b"TB");
            let without = [&sample.bytes[..10], b"TF", &sample.bytes[22..]].concat();
            [renewing, without].map(|card| card::judge(&card))
        });
        let wanted = [[Ok(1), Ok(0)], [Ok(45), Ok(40)]];
        assert_eq!(answers.collect::<Vec<_>>(), wanted);
    }

    /// R103: what the sample says of either line without the other: the end that is left is the first, and at 107 the other line wants
    /// all but a tick of the time.
    #[test]
    fn either_line_alone_says_its_own_end() {
        let sample = late().pop().expect("a sample");
        let without = |slot: usize| {
            let at = 10 + 12 * slot;
            let card = [&sample.bytes[..at], b"TF", &sample.bytes[at + 12..]].concat();
            card::judge(&card)
        };
        assert_eq!(without(0), cases::late(103, 2));
        assert_eq!(without(1), Ok(100));
    }

    /// R53: each mark of a slot's record stands on it, and the twin keeps all but TA.
    #[test]
    fn every_mark_stands_on_one_card() {
        let mixed = leaving().pop().expect("a sample").bytes;
        let marks = [10, 22, 24, 36].map(|at| &mixed[at..at + 2]);
        assert_eq!(marks, [b"TL", b"TF", b"TB", b"TA"]);
        assert_eq!(orders::old_slots(&mixed), 0b1000);
        assert_eq!(orders::twin(&mixed)[..36], mixed[..36]);
    }

    #[test]
    fn one_number_mended_releases() {
        let fine = card_of(40, &FINE, NEW);
        assert_eq!(card::judge(&fine), Ok(40));
        for sample in one_fault() {
            if sample.name == "refused-2-full" {
                continue;
            }
            assert_eq!(sample.bytes.len(), fine.len());
            let differing = |at: &usize| sample.bytes[*at] != fine[*at];
            let of = |at| numbers().iter().rposition(|number| *number <= at);
            let mut changed: Vec<_> = (0..fine.len()).filter(differing).map(of).collect();
            changed.dedup();
            assert_eq!(changed.len(), 1, "{}", sample.name);
        }
    }

    #[test]
    fn no_second_ground_behind_4_and_5() {
        // R26 to R30 look at T' and never at T, so that another T mends the line for them alone.
        let (mut unsound, mut shortened) = (FINE, FINE);
        (unsound[2].3, unsound[2].1) = (32, 64);
        (shortened[1].2, shortened[1].1) = (15, 15);
        for lines in [unsound, shortened] {
            assert_eq!(card::judge(&card_of(40, &lines, NEW)), Ok(40));
        }
    }

    fn read(name: &str) -> card::Reading {
        let sample = one_fault().into_iter().find(|sample| sample.name == name);
        card::read(&sample.expect("a sample").bytes)
    }

    #[test]
    fn one_tick_earlier_and_one_line_fewer_release() {
        let mut late = read("refused-1-late-clock");
        late.table.clock -= 1;
        assert_eq!(rules::ask(&late.table, &late.request), Ok(LAST_CLOCK));
        let mut full = read("refused-2-full");
        assert!(full.table.slots.iter().all(Content::is_sound));
        full.table.slots[15] = Content::Nothing;
        assert_eq!(rules::ask(&full.table, &full.request), Ok(0));
        assert_eq!(equal_lines(16).len(), LONGEST_CARD);
    }
}
