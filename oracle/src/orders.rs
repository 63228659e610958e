//! Cards whose line records stand in either order (R53, R58), or are of lines that leave, made byte by byte: neither the reader
//! nor the writer has a part in it.

use crate::random::Random;

/// R53, R58: the marks of a line's record, and where its two last numbers begin.
const PRESENT: &[u8] = b"TB";
const OLD: &[u8] = b"TA";
const LEAVING: &[u8] = b"TL";
const TWO_LAST: usize = 8;

/// The slots' records from the front, each with its slot, offset and mark; the last one may be cut.
fn records(card: &[u8]) -> Vec<(usize, usize, &[u8])> {
    let (mut all, mut at) = (Vec::new(), 10);
    while let Some(mark) = card.get(at..at + 2) {
        let length = match mark {
            PRESENT | OLD | LEAVING => 12,
            b"TF" => 2,
            _ => break,
        };
        all.push((all.len(), at, mark));
        at += length;
    }
    all
}

/// Another mark for a record.
fn mark(card: &mut [u8], at: usize, mark: &[u8]) {
    card[at..at + 2].copy_from_slice(mark);
}

/// The two last numbers of a record exchanged, where it is whole.
fn exchange(card: &mut [u8], at: usize) {
    if let Some(numbers) = card.get_mut(at + TWO_LAST..at + TWO_LAST + 4) {
        numbers.rotate_left(2);
    }
}

/// A card with every line record of one order put into the other.
fn turned(card: &[u8], from: &[u8], to: &[u8]) -> Vec<u8> {
    let mut turned = card.to_vec();
    for (_, at, found) in records(card) {
        if found == from {
            mark(&mut turned, at, to);
            exchange(&mut turned, at);
        }
    }
    turned
}

/// R58: a card with every line as the third generation wrote it.
pub fn old(card: &[u8]) -> Vec<u8> {
    turned(card, PRESENT, OLD)
}

/// R72: the twin of a card.
#[cfg(test)]
pub fn twin(card: &[u8]) -> Vec<u8> {
    turned(card, OLD, PRESENT)
}

/// R65: the slots whose record is TA, bit k for slot k.
#[cfg(test)]
pub fn old_slots(card: &[u8]) -> u16 {
    let old = records(card).into_iter().filter(|(.., mark)| *mark == OLD);
    old.fold(0, |word, (slot, ..)| word | 1 << slot)
}

/// A card of which half the lines are TA, most of them as the third generation wrote them, some merely marked so.
pub fn drawn(random: &mut Random, card: &[u8]) -> Vec<u8> {
    let mut drawn = card.to_vec();
    for (_, at, found) in records(card) {
        if found != PRESENT {
            continue;
        }
        match random.below(8) {
            0..=3 => {}
            4 => mark(&mut drawn, at, OLD),
            _ => {
                mark(&mut drawn, at, OLD);
                exchange(&mut drawn, at);
            }
        }
    }
    drawn
}

/// A card of which half the TB records are TL.
pub fn some_leaving(random: &mut Random, card: &[u8]) -> Vec<u8> {
    let mut drawn = card.to_vec();
    for (_, at, found) in records(card) {
        if found == PRESENT && random.below(2) == 0 {
            mark(&mut drawn, at, LEAVING);
        }
    }
    drawn
}

#[cfg(test)]
mod tests {
    use super::*;
    use crate::cases::CARD_A;

    #[test]
    fn card_a_in_the_old_order() {
        // R67: ages of 8, and 0 and 8 ticks remaining.
        let wanted = [
            &CARD_A[..10],
            b"TA\x08\0\x10\0\x20\0\0\0\x08\0",
            b"TA\x08\0\x10\0\x10\0\x08\0\x08\0",
            &CARD_A[34..],
        ];
        let old = old(&CARD_A);
        assert_eq!(old, wanted.concat());
        assert_eq!((twin(&old), old_slots(&old)), (CARD_A.to_vec(), 3));
        assert_eq!((twin(&CARD_A), old_slots(&CARD_A)), (CARD_A.to_vec(), 0));
    }

    /// R72: a TL record stands as it is, before one that is turned and behind it.
    #[test]
    fn a_line_that_leaves_stays_as_it_is() {
        for (at, slots) in [(10, 0b10), (22, 0b01)] {
            let mut card = CARD_A.to_vec();
            mark(&mut card, at, LEAVING);
            let old = old(&card);
            assert_eq!(old[at..at + 12], card[at..at + 12]);
            assert_eq!((twin(&old), old_slots(&old)), (card, slots));
        }
    }
}
