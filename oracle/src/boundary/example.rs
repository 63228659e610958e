//! What the examples of bindings/ have to print for a card.

use super::cards;
use crate::card;
use crate::types::{Refusal, LONGEST_CARD};
use std::fmt::Display;

/// The ticks that the examples run.
const TICKS: u16 = 56;

/// R63: what was granted, or the refusal.
fn told<T: Display>(answer: Result<T, Refusal>) -> String {
    answer.map_or_else(|refusal| refusal.to_string(), |given| given.to_string())
}

/// R33, R64: the line put into a buffer that is a byte too short for it.
fn short(bytes: &[u8], line: &str) -> String {
    let mut buffer = vec![0; line.len() - 1];
    told(cards::answer(bytes, &mut buffer))
}

/// R65, R72: the length of the card written anew, and whether it is the same card or which slots are reordered.
fn rewritten(bytes: &[u8]) -> String {
    let mut anew = [0; LONGEST_CARD];
    told(cards::rewrite(bytes, &mut anew).map(|(length, turned)| {
        let same = &anew[..length] == bytes;
        let remark = if same { " the same" } else { "" };
        format!("{length}{remark}{}", cards::reordered(turned.into()))
    }))
}

pub fn example(bytes: &[u8]) -> String {
    let line = card::answer(bytes);
    let short = short(bytes, &line);
    let rewritten = rewritten(bytes);
    let ran = told(cards::run(bytes, TICKS));
    format!("{line}short {short}\nrewritten {rewritten}\nran {ran} of {TICKS}\n")
}

#[cfg(test)]
mod tests {
    use super::*;
    use crate::cases::{self, CARD_A};
    use crate::orders;

    #[test]
    fn the_example_on_card_a() {
        // Three of the 56 ticks find no line owed: 21, 23 and 24 of histories/controller.history.
        let wanted = "release 13\nshort refused 13 0\nrewritten 40 the same\nran 53 of 56\n";
        assert_eq!(example(&CARD_A), wanted);
    }

    #[test]
    fn the_example_on_a_card_of_the_old_order() {
        let wanted = "release 13\nshort refused 13 0\nrewritten 40 reordered 0 1\nran 53 of 56\n";
        assert_eq!(example(&orders::old(&CARD_A)), wanted);
    }

    #[test]
    fn the_example_on_cards_that_are_refused() {
        let broken =
            "refused 11 22\nshort refused 13 0\nrewritten refused 11 22\nran refused 11 22 of 56\n";
        assert_eq!(example(&CARD_A[..33]), broken);
        // R56: the reader takes any numbers, so that the card of a new line of zeros is written anew.
        let zeros = b"CK\0\0\0\0\0\0\0\0RQ\0\0\0\0";
        let asked =
            "refused 6 0\nshort refused 13 0\nrewritten 16 the same\nran refused 6 0 of 56\n";
        assert_eq!(example(zeros), asked);
    }

    #[test]
    fn the_example_on_cases_that_are_refused() {
        for (name, refused) in [("G", "refused 9 0"), ("J", "refused 10 0 3 2")] {
            let case = cases::all().into_iter().find(|case| case.name == name);
            let case = case.expect(name);
            let wanted = format!("{refused}\nshort refused 13 0\nrewritten ");
            let lines = example(&card::bytes(&case.table, &case.request));
            assert!(lines.starts_with(&wanted), "{lines}");
            let ran = format!(" the same\nran {refused} of 56\n");
            assert!(lines.ends_with(&ran), "{lines}");
        }
    }
}
