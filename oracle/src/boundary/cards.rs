//! The operations on cards, R64 to R66.

use crate::card;
use crate::rules;
use crate::types::{Refusal, SLOTS};

/// R64: the line of a card.
pub fn answer(bytes: &[u8], buffer: &mut [u8]) -> Result<usize, Refusal> {
    card::put(card::answer(bytes).as_bytes(), buffer)
}

/// R65: reads a card and writes its twin; the card's length, and the slots whose record was TA.
pub fn rewrite(bytes: &[u8], buffer: &mut [u8]) -> Result<(usize, u16), Refusal> {
    let parsed = card::parse(bytes)?;
    let length = card::write(&parsed.table, &parsed.request, buffer)?;
    Ok((length, parsed.turned))
}

/// R65: what is said of a rewritten card after anything else: its reordered slots, lowest first, if there are any.
pub fn reordered(word: u64) -> String {
    let slots = (0..SLOTS).filter(|slot| word >> slot & 1 == 1);
    let words: String = slots.map(|slot| format!(" {slot}")).collect();
    if words.is_empty() {
        return words;
    }
    format!(" reordered{words}")
}

/// R66: in how many of the ticks after the admission a line ran.
pub fn run(bytes: &[u8], ticks: u16) -> Result<u64, Refusal> {
    let parsed = card::parse(bytes)?;
    let (_, mut table) = rules::admit(&parsed.table, &parsed.request)?;
    let mut ran = 0;
    for _ in 0..ticks {
        let (next, slot) = rules::step(&table)?;
        ran += u64::from(slot.is_some());
        table = next;
    }
    Ok(ran)
}

#[cfg(test)]
mod tests {
    use super::*;
    use crate::cases::CARD_A;
    use crate::orders;
    use crate::random::Random;
    use crate::spoil;
    use crate::types::{LAST_ASK, LONGEST_CARD};

    /// R65, R72: the twin stands at the start of the buffer, and the rest is as it was.
    #[test]
    fn a_card_that_reads_is_written_as_its_twin() {
        let mut random = Random::new(51);
        let mut drawn = || {
            let card = spoil::random_card(&mut random);
            orders::drawn(&mut random, &card)
        };
        let drawn: Vec<_> = (0..5_000).map(|_| drawn()).collect();
        let (mut same, mut turned) = (0, 0);
        for bytes in spoil::named().into_iter().chain(drawn) {
            let mut buffer = [7; LONGEST_CARD];
            match rewrite(&bytes, &mut buffer) {
                Ok(told) => {
                    let mut wanted = orders::twin(&bytes);
                    assert_eq!(told, (wanted.len(), orders::old_slots(&bytes)));
                    same += u64::from(wanted == bytes);
                    turned += u64::from(wanted != bytes);
                    wanted.resize(LONGEST_CARD, 7);
                    assert_eq!(buffer[..], wanted);
                }
                Err(refusal) => {
                    assert_eq!(Err(refusal), card::parse(&bytes));
                    assert_eq!(buffer, [7; LONGEST_CARD]);
                }
            }
        }
        assert!(same > 100 && turned > 100, "{same} {turned}");
    }

    #[test]
    fn a_short_buffer_for_a_card_of_the_old_order() {
        let (old, mut buffer) = (orders::old(&CARD_A), [7; 41]);
        let short = rewrite(&old, &mut buffer[..39]);
        assert_eq!((short, buffer), (Err(Refusal::at(13, 0)), [7; 41]));
        assert_eq!(rewrite(&old[..39], &mut []), Err(Refusal::at(11, 34)));
        assert_eq!(rewrite(&old, &mut buffer), Ok((40, 0b11)));
        assert_eq!((&buffer[..40], buffer[40]), (&CARD_A[..], 7));
    }

    #[test]
    fn the_slots_of_a_word() {
        assert_eq!(reordered(0), "");
        assert_eq!(reordered(1), " reordered 0");
        assert_eq!(reordered(0x8809), " reordered 0 3 11 15");
    }

    #[test]
    fn runs() {
        assert_eq!(run(&CARD_A, 0), Ok(0));
        assert_eq!(run(&CARD_A[..39], 1), Err(Refusal::at(11, 34)));
        // R7, R35: 65,535 ticks after the last ask the last tick is not reached yet.
        let late = [b"CK", &LAST_ASK.to_le_bytes()[..], b"RQ\x01\x00\x04\x00"].concat();
        assert_eq!(run(&late, 65_535), Ok(16_384));
    }
}
