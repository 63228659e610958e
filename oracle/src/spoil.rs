//! Broken cards: every kind that R57 names, each beside cards that read, and random ones.

use crate::card;
use crate::cases;
use crate::draw;
#[cfg(any(test, feature = "house"))]
use crate::draw_late;
#[cfg(any(test, feature = "house"))]
use crate::draw_leaving;
use crate::orders;
use crate::random::Random;
use crate::types::{EMPTY, SLOTS, ZEROS};

/// R53: the marks that are put in each other's places, and some that are none; `leaving` has what TL adds.
const MARKS: [&[u8]; 12] = [
    b"CK", b"TB", b"TF", b"TA", b"RQ", b"XX", b"tb", b"ck", b"BT", b"T\0", b"TG", b"\0\0",
];

/// A whole TB, TA, TL and RQ record and a clock record, with numbers that a sound line may have.
const LINE: &[u8] = b"TB\x01\x00\x40\x00\x40\x00\x00\x00\x01\x00";
const OLD: &[u8] = b"TA\x01\x00\x40\x00\x40\x00\x01\x00\x00\x00";
const LEAVING: &[u8] = b"TL\x01\x00\x40\x00\x40\x00\x00\x00\x01\x00";
const ASKED: &[u8] = b"RQ\x01\x00\x04\x00";
const CLOCK: &[u8] = b"CK\x08\x00\x00\x00\x00\x00\x00\x00";

/// A card of `lines` equal lines; 16 make the longest card, 208 bytes.
fn equal_lines(lines: usize) -> Vec<u8> {
    [CLOCK, &LINE.repeat(lines), ASKED].concat()
}

/// The offsets of the records of a card of equal lines.
fn offsets(lines: usize) -> Vec<usize> {
    let first = [0];
    let rest = (0..=lines).map(|record| 10 + 12 * record);
    first.into_iter().chain(rest).collect()
}

/// A card with another mark at an offset.
pub fn with_mark(card: &[u8], offset: usize, mark: &[u8]) -> Vec<u8> {
    let mut changed = card.to_vec();
    changed[offset..offset + mark.len()].copy_from_slice(mark);
    changed
}

/// R57: every prefix of the longest card, and the longest card with bytes after it.
fn prefixes() -> Vec<Vec<u8>> {
    let full = equal_lines(SLOTS);
    let mut cards: Vec<Vec<u8>> = (0..=full.len()).map(|cut| full[..cut].to_vec()).collect();
    for more in [&b"R"[..], b"RQ", b"TB", b"\0", ASKED, &[b'T'; 30]] {
        cards.push([&full, more].concat());
    }
    cards
}

/// R57: each mark of the longest card and of card A replaced by each other mark.
fn replaced_marks() -> Vec<Vec<u8>> {
    let full = equal_lines(SLOTS);
    let mut cards = Vec::new();
    for mark in MARKS {
        cards.extend(offsets(SLOTS).iter().map(|at| with_mark(&full, *at, mark)));
        cards.extend([0, 10, 22, 34].map(|at| with_mark(&cases::CARD_A, at, mark)));
    }
    cards
}

/// R57, R58: TA in every place, cut to every length and whole, with and without more records after it.
fn old_marks() -> Vec<Vec<u8>> {
    let mut cards = vec![OLD.to_vec(), b"TA".to_vec(), b"T".to_vec(), b"C".to_vec()];
    for lines in 0..=SLOTS {
        let before = [CLOCK, &LINE.repeat(lines)].concat();
        let cuts = if !(3..=14).contains(&lines) {
            1..=12
        } else {
            2..=2
        };
        cards.extend(cuts.map(|cut| [&before, &OLD[..cut]].concat()));
        cards.push([&before, OLD, ASKED].concat());
        cards.push([&before, OLD, &LINE.repeat(3), ASKED].concat());
    }
    cards
}

/// R55, R57: empty slots in all places, and directly before RQ.
fn free_slots() -> Vec<Vec<u8>> {
    let mut cards = Vec::new();
    for frees in 0..=17 {
        let free = b"TF".repeat(frees);
        cards.push([CLOCK, &free, ASKED].concat());
        cards.push([CLOCK, &free, LINE, ASKED].concat());
        cards.push([CLOCK, LINE, &free, ASKED].concat());
        cards.push([CLOCK, LINE, &free, OLD].concat());
        cards.push([CLOCK, &free].concat());
        cards.push([CLOCK, LINE, &free, LINE, b"TF", ASKED].concat());
    }
    for tail in [
        &b"R"[..],
        b"RQ",
        b"RQ\x01\x00\x04",
        b"RQ\x01\x00\x04\x00\x00",
    ] {
        cards.push([CLOCK, b"TF", tail].concat());
        cards.push([CLOCK, tail].concat());
        cards.push([CLOCK, LINE, b"TF", b"TF", tail].concat());
    }
    cards
}

/// R57: a seventeenth record of each kind after sixteen of each kind, whole and cut.
fn seventeenth() -> Vec<Vec<u8>> {
    let mut cards = Vec::new();
    for sixteen in [
        LINE.repeat(16),
        b"TF".repeat(16),
        [LINE, b"TF"].concat().repeat(8),
    ] {
        for more in [
            LINE, OLD, b"TF", b"TB", b"TA", b"T", b"XX", CLOCK, b"", b"RQ",
        ] {
            cards.push([CLOCK, &sixteen, more].concat());
            cards.push([CLOCK, &sixteen, more, ASKED].concat());
        }
    }
    cards
}

/// R54: records in each other's places, twice, or missing.
fn swapped() -> Vec<Vec<u8>> {
    let parts: [&[u8]; 5] = [CLOCK, LINE, b"TF", LINE, ASKED];
    let mut cards = Vec::new();
    for one in 0..parts.len() {
        cards.push([&parts[..one], &parts[one + 1..]].concat().concat());
        cards.push([&parts[..=one], &parts[one..]].concat().concat());
        for other in one + 1..parts.len() {
            let mut order = parts;
            order.swap(one, other);
            cards.push(order.concat());
        }
    }
    cards
}

/// Every broken card of the stored set that is not random, and what stands beside it.
pub fn named() -> Vec<Vec<u8>> {
    [
        prefixes(),
        replaced_marks(),
        old_marks(),
        free_slots(),
        seventeenth(),
        swapped(),
    ]
    .concat()
}

/// R57: TL, and marks that are nearly it, in the place of each mark of the longest card and of card A.
fn leaving_marks() -> Vec<Vec<u8>> {
    let full = equal_lines(SLOTS);
    let mut cards = Vec::new();
    for mark in [b"TL", b"Tl", b"tL", b"LT", b"TK", b"TM"] {
        cards.extend([0, 10, 22, 34].map(|at| with_mark(&cases::CARD_A, at, mark)));
    }
    cards.extend(offsets(SLOTS).iter().map(|at| with_mark(&full, *at, b"TL")));
    cards
}

/// R57: TL after some lines, cut to every length and whole, with and without more records after it.
fn leaving_records() -> Vec<Vec<u8>> {
    let mut cards = vec![LEAVING.to_vec()];
    for lines in [0, 1, 2, 14, 15, 16] {
        let before = &[CLOCK, &LINE.repeat(lines)].concat()[..];
        cards.extend((1..=12).map(|cut| [before, &LEAVING[..cut]].concat()));
        cards.push([before, LEAVING, ASKED].concat());
        cards.push([before, LEAVING, &ASKED[..5]].concat());
        cards.push([before, LEAVING, b"TF", ASKED].concat());
        cards.push([before, b"TF", LEAVING, ASKED].concat());
        cards.push([before, LEAVING, OLD, b"TF", LINE, ASKED].concat());
    }
    for seventeenth in [LINE, OLD, LEAVING, b"TF", b"TL", b"XX", b"", b"RQ"] {
        cards.push([CLOCK, &LEAVING.repeat(16), seventeenth, ASKED].concat());
    }
    cards
}

/// The same for TL (R53). It stands by itself, so that no card of the stored set moves.
pub fn leaving() -> Vec<Vec<u8>> {
    [leaving_marks(), leaving_records()].concat()
}

/// A card of any table whatever; waiting lines cannot stand on a card.
fn any_card(random: &mut Random) -> Vec<u8> {
    let (table, request) = draw::any(random);
    card::bytes(&table, &request)
}

/// One random change of a card's bytes.
fn change(random: &mut Random, card: &mut Vec<u8>) {
    let length = card.len() as u64;
    let at = random.below(length.max(1)) as usize;
    let aligned = (10 + 12 * random.below(17)).min(length.saturating_sub(6)) as usize;
    match random.below(7) {
        0 => card.truncate(at),
        1 => card.push(random.below(256) as u8),
        2 if at < card.len() => card[at] = random.below(256) as u8,
        3 if at < card.len() => {
            card.remove(at);
        }
        4 => card.insert(at, random.below(256) as u8),
        _ => {
            let mark = MARKS[random.below(MARKS.len() as u64) as usize];
            if let Some(place) = card.get_mut(aligned..aligned + 2) {
                place.copy_from_slice(mark);
            }
        }
    }
}

/// A random card with one to three changes of its bytes.
pub fn random_card(random: &mut Random) -> Vec<u8> {
    let mut card = match random.below(4) {
        0 => any_card(random),
        1 => card::bytes(&EMPTY, &ZEROS),
        _ => {
            let (table, request) = draw::damaged(random);
            card::bytes(&table, &request)
        }
    };
    for _ in 0..1 + random.below(3) {
        change(random, &mut card);
    }
    card
}

/// The same, half of its TB records TL.
pub fn random_leaving_card(random: &mut Random) -> Vec<u8> {
    let card = random_card(random);
    orders::some_leaving(random, &card)
}

/// A random card of one of the kinds of the histories: near full load, late (R103), wide, damaged, any, broken; R99: of about half of
/// them some lines leave.
#[cfg(any(test, feature = "house"))]
pub fn mixed_card(random: &mut Random) -> Vec<u8> {
    let of = |(table, request)| card::bytes(&table, &request);
    match random.below(100) {
        0..=29 => of(draw::near_full(random)),
        30..=35 => of(draw_late::late(random)),
        36..=47 => of(draw_leaving::near_full(random)),
        48..=59 => of(draw_leaving::hurried(random)),
        60 => of(draw::wide(random)),
        61..=67 => of(draw::damaged(random)),
        68..=74 => of(draw_leaving::damaged(random)),
        75 | 76 => of(draw::any(random)),
        77..=79 => {
            let card = of(draw::any(random));
            orders::some_leaving(random, &card)
        }
        80..=89 => random_card(random),
        _ => random_leaving_card(random),
    }
}
