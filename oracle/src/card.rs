//! The card: reader (R52 to R58), writer (R59), and the line of the answering program (R60, R61).

use crate::rules;
use crate::types::{Content, Follows, Refusal, Request, Run, Table, EMPTY, SLOTS, ZEROS};

/// R53: opens the clock's record.
const CLOCK: &[u8] = b"CK";
/// R53: opens the record of a running line that renews, five numbers.
const LINE: &[u8] = b"TB";
/// R53: opens the record of one that leaves, laid out as the same.
const LEAVING: &[u8] = b"TL";
/// R58: opens a line's record of the third generation, its two last numbers in the old order.
const OLD: &[u8] = b"TA";
/// R53: the whole record of an empty slot.
const FREE: &[u8] = b"TF";
/// R53: opens the new line's record.
const ASKED: &[u8] = b"RQ";

/// R53: lengths of the records, mark included.
const CLOCK_LENGTH: usize = 10;
const LINE_LENGTH: usize = 12;
const FREE_LENGTH: usize = 2;
const ASKED_LENGTH: usize = 6;

/// R53, R58: which of a line's two last numbers comes first.
#[derive(Clone, Copy, PartialEq, Eq)]
enum Order {
    AgeFirst,
    RemainingFirst,
}

/// R56: what stands on a card that is not broken.
#[derive(Clone, Copy, Debug, PartialEq, Eq)]
pub struct Parsed {
    pub table: Table,
    pub request: Request,
    /// R65: bit k is 1 where slot k's record was TA.
    pub turned: u16,
}

/// R56: what the reader hands out; beside a refusal nothing but zeros, and no count and no last slot in any case.
#[derive(Clone, Copy, Debug, PartialEq, Eq)]
pub struct Reading {
    pub refusal: Option<Refusal>,
    pub table: Table,
    pub request: Request,
}

/// R56: reads a card, whatever its numbers.
pub fn read(card: &[u8]) -> Reading {
    match parse(card) {
        Ok(parsed) => Reading {
            refusal: None,
            table: parsed.table,
            request: parsed.request,
        },
        Err(refusal) => Reading {
            refusal: Some(refusal),
            table: EMPTY,
            request: ZEROS,
        },
    }
}

/// R31: a broken card, with the offset of what breaks it.
fn broken(offset: usize) -> Refusal {
    Refusal::at(11, offset)
}

/// The record of `length` bytes at `offset`; R57: one that is cut is broken where it begins.
fn record(card: &[u8], offset: usize, length: usize) -> Result<&[u8], Refusal> {
    let bytes = card.get(offset..offset + length);
    bytes.ok_or(broken(offset))
}

/// R52: the number at a byte of a record, little-endian; 0 outside, which does not happen.
fn number(record: &[u8], at: usize) -> u16 {
    let byte = |index: usize| u16::from(record.get(index).copied().unwrap_or(0));
    byte(at) | byte(at + 1) << 8
}

/// The two bytes of a mark; R57: where they are missing or cut the card is broken.
fn mark(card: &[u8], offset: usize) -> Result<&[u8], Refusal> {
    record(card, offset, 2)
}

/// R53, R58: the order that a line's mark means, and what follows the line's period; none for any other mark.
fn meaning(mark: &[u8]) -> Option<(Order, Follows)> {
    match mark {
        LINE => Some((Order::AgeFirst, Follows::Renews)),
        LEAVING => Some((Order::AgeFirst, Follows::Leaves)),
        OLD => Some((Order::RemainingFirst, Follows::Renews)),
        _ => None,
    }
}

/// R54, R57: goes through the records from the front and stops at the first that is refused.
pub fn parse(card: &[u8]) -> Result<Parsed, Refusal> {
    let mut parsed = Parsed {
        table: EMPTY,
        request: ZEROS,
        turned: 0,
    };
    parsed.table.clock = read_clock(card)?;
    let mut offset = CLOCK_LENGTH;
    let mut slot = 0;
    let mut free_before = false;
    loop {
        let next = mark(card, offset)?;
        if next == ASKED {
            read_asked(card, offset, free_before, &mut parsed.request)?;
            return Ok(parsed);
        }
        // R57: no slot record may stand here; a seventeenth one is broken, whatever its mark.
        if slot == SLOTS {
            return Err(broken(offset));
        }
        if let Some(meaning) = meaning(next) {
            let bytes = record(card, offset, LINE_LENGTH)?;
            read_line(bytes, meaning, slot, &mut parsed);
            offset += LINE_LENGTH;
        } else if next == FREE {
            offset += FREE_LENGTH;
        } else {
            return Err(broken(offset));
        }
        free_before = next == FREE;
        slot += 1;
    }
}

/// R53, R57: the clock record at offset 0.
fn read_clock(card: &[u8]) -> Result<u64, Refusal> {
    if mark(card, 0)? != CLOCK {
        return Err(broken(0));
    }
    let bytes = record(card, 0, CLOCK_LENGTH)?;
    Ok(bytes
        .iter()
        .skip(2)
        .rev()
        .fold(0, |clock, byte| clock << 8 | u64::from(*byte)))
}

/// R53, R58: a line record into its slot, its entry of the request, and its bit of the turned slots.
fn read_line(bytes: &[u8], (order, follows): (Order, Follows), slot: usize, parsed: &mut Parsed) {
    let (first, last) = (number(bytes, 8), number(bytes, 10));
    let (age, remaining) = match order {
        Order::AgeFirst => (first, last),
        Order::RemainingFirst => (last, first),
    };
    parsed.table.slots[slot] = Content::Running(Run {
        need: number(bytes, 2),
        period: number(bytes, 4),
        age,
        remaining,
        follows,
    });
    parsed.request.stretched[slot] = number(bytes, 6);
    parsed.turned |= u16::from(order == Order::RemainingFirst) << slot;
}

/// R57: the request record. An empty slot before it is found first, then a cut, then a byte too many.
fn read_asked(
    card: &[u8],
    offset: usize,
    free_before: bool,
    request: &mut Request,
) -> Result<(), Refusal> {
    if free_before {
        return Err(broken(offset));
    }
    let bytes = record(card, offset, ASKED_LENGTH)?;
    let end = offset + ASKED_LENGTH;
    if card.len() > end {
        return Err(broken(end));
    }
    request.need = number(bytes, 2);
    request.period = number(bytes, 4);
    Ok(())
}

/// R55, R59: the bytes of the card of a table, with empty slots written up to the last running line
/// only, and each line as TB or TL. A waiting line has no record; the writer refuses it before, and random cards take it as
/// an empty slot.
pub fn bytes(table: &Table, request: &Request) -> Vec<u8> {
    let mut card = CLOCK.to_vec();
    card.extend(table.clock.to_le_bytes());
    let used = table.running().last().map_or(0, |(slot, _)| slot + 1);
    for slot in 0..used {
        match &table.slots[slot] {
            Content::Running(run) => push_line(&mut card, run, request.stretched[slot]),
            _ => card.extend(FREE),
        }
    }
    card.extend(ASKED);
    push_numbers(&mut card, &[request.need, request.period]);
    card
}

fn push_line(card: &mut Vec<u8>, run: &Run, stretched: u16) {
    card.extend(match run.follows {
        Follows::Renews => LINE,
        Follows::Leaves => LEAVING,
    });
    let numbers = [run.need, run.period, stretched, run.age, run.remaining];
    push_numbers(card, &numbers);
}

fn push_numbers(card: &mut Vec<u8>, numbers: &[u16]) {
    for number in numbers {
        card.extend(number.to_le_bytes());
    }
}

/// R59: a waiting line is refused before a short buffer, and the rest of the buffer is untouched.
pub fn write(table: &Table, request: &Request, buffer: &mut [u8]) -> Result<usize, Refusal> {
    if let Some(slot) = table.lowest(Content::is_waiting) {
        return Err(Refusal::at(3, slot));
    }
    put(&bytes(table, request), buffer)
}

/// R33, R59, R62: what is written stands at the start of a lent buffer, all of it or nothing.
pub fn put(text: &[u8], buffer: &mut [u8]) -> Result<usize, Refusal> {
    let part = buffer.get_mut(..text.len()).ok_or(Refusal::at(13, 0))?;
    part.copy_from_slice(text);
    Ok(text.len())
}

/// R60: what the reader refuses is not asked.
pub fn judge(card: &[u8]) -> Result<u64, Refusal> {
    let parsed = parse(card)?;
    rules::ask(&parsed.table, &parsed.request)
}

/// R61: an answer as a line.
pub fn line(answer: Result<u64, Refusal>) -> String {
    match answer {
        Ok(start) => format!("release {start}\n"),
        Err(refusal) => format!("{refusal}\n"),
    }
}

/// R60: the answering program's one line for a card.
pub fn answer(card: &[u8]) -> String {
    line(judge(card))
}

#[cfg(test)]
mod tests {
    use super::*;
    use crate::cases::{self, CARD_A};
    use crate::draw;
    use crate::draw_counts;
    use crate::draw_last;
    use crate::draw_leaving;
    use crate::orders;
    use crate::random::Random;
    use crate::types::{Wait, LONGEST_CARD, NO_COUNTS};

    fn refusal(card: &[u8]) -> (u8, u64) {
        let reading = read(card);
        let refusal = reading.refusal.expect("refused");
        assert_eq!((reading.table, reading.request), (EMPTY, ZEROS));
        (refusal.number, refusal.place)
    }

    fn clock() -> Vec<u8> {
        CARD_A[..10].to_vec()
    }

    fn card(parts: &[&[u8]]) -> Vec<u8> {
        let mut card = clock();
        card.extend(parts.concat());
        card
    }

    const TB: &[u8] = b"TB0123456789";
    const TA: &[u8] = b"TA0123456789";
    const TL: &[u8] = b"TL0123456789";
    const RQ: &[u8] = b"RQ0123";

    #[test]
    fn card_a() {
        assert_eq!(answer(&CARD_A), "release 13\n");
        let a = &cases::all()[0];
        assert_eq!(bytes(&a.table, &a.request), CARD_A);
        let mut buffer = [7; 41];
        assert_eq!(write(&a.table, &a.request, &mut buffer), Ok(40));
        assert_eq!((&buffer[..40], buffer[40]), (&CARD_A[..], 7));
    }

    /// R61: the tick and the excess stand behind the place where they are not both 0. Of numbers as wide as R17 and R103 allow the
    /// line has 67 bytes.
    #[test]
    fn the_line_of_a_refusal() {
        let said = |number, place, tick, excess| {
            line(Err(Refusal {
                number,
                place,
                tick,
                excess,
            }))
        };
        assert_eq!(said(10, 0, 3, 2), "refused 10 0 3 2\n");
        assert_eq!(said(10, 0, 0, 2), "refused 10 0 0 2\n");
        assert_eq!(said(10, 0, 3, 0), "refused 10 0 3 0\n");
        assert_eq!(said(11, 22, 0, 0), "refused 11 22\n");
        // This program's numbers of refusals have 8 bits, two digits fewer than 16 bits may have.
        let widest = said(u8::MAX, u64::MAX, u64::MAX, u32::MAX.into());
        assert_eq!(widest.len() + 2, 67);
    }

    #[test]
    fn a_buffer_of_40_bytes_against_39_for_card_a() {
        let a = &cases::all()[0];
        let mut buffer = [7; 40];
        let short = write(&a.table, &a.request, &mut buffer[..39]);
        assert_eq!((short, buffer), (Err(Refusal::at(13, 0)), [7; 40]));
        assert_eq!(write(&a.table, &a.request, &mut buffer), Ok(40));
    }

    #[test]
    fn writer_refuses_3_before_13() {
        let mut table = EMPTY;
        table.slots[9] = Content::Waiting(Wait {
            need: 0,
            period: 0,
            wait: 0,
        });
        assert_eq!(write(&table, &ZEROS, &mut []), Err(Refusal::at(3, 9)));
        assert_eq!(write(&EMPTY, &ZEROS, &mut [0; 15]), Err(Refusal::at(13, 0)));
        assert_eq!(write(&EMPTY, &ZEROS, &mut [0; 16]), Ok(16));
    }

    #[test]
    fn every_prefix_of_card_a_is_cut() {
        for length in 0..40 {
            let place = match length {
                0..=9 => 0,
                10..=21 => 10,
                22..=33 => 22,
                _ => 34,
            };
            assert_eq!(refusal(&CARD_A[..length]), (11, place), "{length}");
        }
    }

    /// R57, R58: a TA or a TL record is broken where a TB record would be.
    #[test]
    fn broken_records_of_the_old_order_and_of_lines_that_leave() {
        for whole in [TB, TA, TL] {
            let mark = &whole[..2];
            assert_eq!(refusal(mark), (11, 0));
            assert_eq!(refusal(whole), (11, 0));
            assert_eq!(refusal(&card(&[mark])), (11, 10));
            assert_eq!(refusal(&card(&[TB, b"TF", &whole[..4]])), (11, 24));
            assert_eq!(refusal(&card(&[&whole[..11]])), (11, 10));
            assert_eq!(refusal(&card(&[whole])), (11, 22));
            assert_eq!(refusal(&card(&[whole, b"TF", RQ])), (11, 24));
            assert_eq!(refusal(&card(&[&whole[..1]])), (11, 10));
            let full = TB.repeat(16);
            assert_eq!(refusal(&card(&[&full, mark])), (11, 202));
            assert_eq!(refusal(&card(&[&full, whole, RQ])), (11, 202));
            assert_eq!(refusal(&card(&[&TB.repeat(15), mark])), (11, 190));
        }
    }

    /// R53, R58: the same five numbers in either order, under each mark; in bytes "67" and "89" are the two last ones.
    #[test]
    fn what_each_mark_means() {
        let parsed = parse(&card(&[TB, b"TF", TA, TL, RQ])).expect("a whole card");
        let (sixth, eighth) = (u16::from_le_bytes(*b"67"), u16::from_le_bytes(*b"89"));
        let line = |age, remaining, follows| {
            Content::Running(Run {
                need: u16::from_le_bytes(*b"01"),
                period: u16::from_le_bytes(*b"23"),
                age,
                remaining,
                follows,
            })
        };
        let mut slots = EMPTY.slots;
        slots[0] = line(sixth, eighth, Follows::Renews);
        slots[2] = line(eighth, sixth, Follows::Renews);
        slots[3] = line(sixth, eighth, Follows::Leaves);
        assert_eq!(parsed.table.slots, slots);
        let t = u16::from_le_bytes(*b"45");
        assert_eq!(parsed.request.stretched[..5], [t, 0, t, t, 0]);
        assert_eq!(parsed.turned, 0b100);
        let anew = [TB, b"TF", b"TB0123458967", TL, RQ];
        assert_eq!(bytes(&parsed.table, &parsed.request), card(&anew));
    }

    #[test]
    fn every_slot_of_the_old_order_is_told() {
        let turned = |card: &[u8]| parse(card).expect("a whole card").turned;
        assert_eq!(turned(&card(&[&TA.repeat(16), RQ])), 0xFFFF);
        assert_eq!(turned(&card(&[&TB.repeat(15), TA, RQ])), 0x8000);
        assert_eq!(turned(&card(&[&TB.repeat(16), RQ])), 0);
        assert_eq!(turned(&card(&[&TL.repeat(15), TA, RQ])), 0x8000);
        assert_eq!(turned(&card(&[&TL.repeat(16), RQ])), 0);
    }

    /// Any table, of which half the lines leave, or one near full load.
    fn drawn(random: &mut Random, round: u64) -> (Table, Request) {
        if round % 2 == 1 {
            return draw_leaving::near_full(random);
        }
        let (mut table, request) = draw::any(random);
        draw_leaving::any(random, &mut table);
        (table, request)
    }

    #[test]
    fn a_card_reads_as_its_twin() {
        let mut random = Random::new(33);
        let mut mixed = 0;
        for round in 0..5_000 {
            let (table, request) = drawn(&mut random, round);
            let card = orders::drawn(&mut random, &bytes(&table, &request));
            let twin = orders::twin(&card);
            let (parsed, same) = (parse(&card), parse(&twin).expect("a whole card"));
            let turned = orders::old_slots(&card);
            assert_eq!(parsed, Ok(Parsed { turned, ..same }));
            assert_eq!(same.turned, 0);
            assert_eq!(bytes(&same.table, &same.request), twin);
            let lines = same.table.running().count() as u32;
            mixed += u32::from((1..lines).contains(&turned.count_ones()));
        }
        assert!(mixed > 1_000, "{mixed}");
    }

    #[test]
    fn seventeenth_record_and_bytes_after() {
        let full = TB.repeat(16);
        for seventeenth in [TB, TA, TL, b"TF", b"TA", b"TB", b"TL"] {
            assert_eq!(refusal(&card(&[&full, seventeenth, RQ])), (11, 202));
        }
        let longest = card(&[&full, RQ]);
        assert_eq!(longest.len(), LONGEST_CARD);
        assert_eq!(read(&longest).refusal, None);
        assert_eq!(refusal(&card(&[&full, RQ, b"R"])), (11, 208));
        assert_eq!(refusal(&card(&[RQ, RQ])), (11, 16));
    }

    #[test]
    fn free_before_request_and_misplaced_marks() {
        assert_eq!(refusal(&card(&[b"TF", RQ])), (11, 12));
        assert_eq!(refusal(&card(&[TB, b"TF", b"TF", b"RQ"])), (11, 26));
        assert_eq!(refusal(&card(&[b"TF", RQ, b"x"])), (11, 12));
        assert_eq!(refusal(&card(&[TB, &clock(), RQ])), (11, 22));
        for mark in [b"tb", b"tl", b"Tl", b"LT"] {
            assert_eq!(refusal(&card(&[mark])), (11, 10));
        }
        assert_eq!(refusal(&card(&[b"TF"])), (11, 12));
        assert_eq!(refusal(RQ), (11, 0));
    }

    #[test]
    fn a_written_card_reads_back_with_zeros_in_empty_slots_and_counts_and_no_last_slot() {
        let mut random = Random::new(31);
        for round in 0..5_000 {
            let (mut table, mut request) = drawn(&mut random, round);
            for slot in 0..SLOTS {
                if table.slots[slot].is_waiting() {
                    table.slots[slot] = Content::Nothing;
                }
            }
            draw_counts::any(&mut random, &mut table);
            draw_last::any(&mut random, &mut table);
            let reading = read(&bytes(&table, &request));
            (table.counts, table.last) = (NO_COUNTS, 255);
            for slot in 0..SLOTS {
                if table.slots[slot] == Content::Nothing {
                    request.stretched[slot] = 0;
                }
            }
            let expected = Reading {
                refusal: None,
                table,
                request,
            };
            assert_eq!(reading, expected);
        }
    }

    #[test]
    fn only_the_first_209_bytes_matter() {
        let mut random = Random::new(32);
        let full = card(&[&TB.repeat(16), RQ, &[b'T'; 40]]);
        for _ in 0..20_000 {
            let mut card = full.clone();
            for _ in 0..random.below(4) {
                let at = random.below(card.len() as u64) as usize;
                card[at] = b"TBFALRQCK0"[random.below(10) as usize];
            }
            assert_eq!(read(&card), read(&card[..LONGEST_CARD + 1]));
        }
    }
}
