//! Every function on images (R85 to R92, R98, R102), with lent buffers of every length.

use crate::lent::{overwritten, writes, Lent, FILL};
use crate::samples::{
    admitted, case_a, case_e_leaving, counted, image, leaving, ran_last, refused, running, Image,
    BENCH, CARD_A, CARD_A_MIXED, CARD_A_OLD, CARD_LEAVING, CARD_LEAVING_TWIN, NUMBERS_A,
};
use std::fmt::Debug;
use trimthuel::image::{admit, ask, counts, empty, leave, read_card, ready, step, write_card};
use trimthuel::{Answer, Counts, Refusal, REQUEST_SIZE, TABLE_SIZE};

/// R83: case A's image cut, or with bytes after it, is refused there and stays. Whole it is granted this, and is that after.
#[track_caller]
fn reads<T: Debug + PartialEq>(
    call: impl Fn(&mut [u8]) -> Result<T, Refusal>,
    granted: T,
    after: Image,
) {
    let bytes = overwritten(&FILL, &case_a());
    for length in (0..=FILL.len()).filter(|length| *length != TABLE_SIZE) {
        let mut table = Lent::new(&bytes[..length]);
        assert_eq!(call(table.lend()), refused(11, length.min(TABLE_SIZE)));
        table.holds(&bytes[..length]);
    }
    let mut table = Lent::new(&case_a());
    assert_eq!(call(table.lend()), Ok(granted));
    table.holds(&after);
}

#[test]
fn r85_empty() {
    writes(empty, &image(0, &[]));
}

#[test]
fn r86_ask_and_r87_admit() {
    let answer = Answer { start: 13, slot: 2 };
    reads(|table| ask(table, &BENCH), answer, case_a());
    reads(|table| admit(table, &BENCH), answer, admitted());
}

#[test]
fn r88_step() {
    let next = image(9, &[(0, running(8, 16, 9, 0)), (1, running(8, 16, 9, 7))]);
    reads(step, Some(1), ran_last(counted(next, &[(1, 1)]), 1));
}

#[test]
fn r102_leave() {
    let next = image(8, &[(0, running(8, 16, 8, 0)), (1, leaving(8, 16, 8, 8))]);
    reads(|table| leave(table, 1), 8, next);
}

#[test]
fn r89_ready() {
    reads(|table| ready(table), 0b10, case_a());
}

#[test]
fn r98_counts() {
    let none = Counts {
        had: [0; 16],
        idle: 0,
        departed: 0,
        clock: 8,
    };
    reads(|table| counts(table), none, case_a());
}

#[test]
fn r91_write_card() {
    reads(
        |table| write_card(table, &BENCH, &mut [0; 40]),
        40,
        case_a(),
    );
    writes(|card| write_card(&case_a(), &BENCH, card), CARD_A);
    // R83 comes before R33, and a refused image leaves the card's buffer.
    let mut card = Lent::new(&FILL);
    assert_eq!(write_card(&[], &BENCH, card.lend()), refused(11, 0));
    card.holds(&FILL);
}

/// R92: where the card is granted the eighteen numbers are these, else they stay; the card always does.
fn read_into(
    card: &[u8],
    table: &mut [u8],
    granted: &[u16; REQUEST_SIZE],
) -> Result<usize, Refusal> {
    let before = [7; REQUEST_SIZE];
    let (mut lent, mut numbers) = (Lent::new(card), Lent::new(&before));
    let request = numbers.lend().try_into().expect("eighteen numbers");
    let said = read_card(lent.lend(), table, request);
    numbers.holds(if said.is_ok() { granted } else { &before });
    lent.holds(card);
    said
}

#[test]
fn r92_read_card() {
    for card in [CARD_A, CARD_A_OLD, CARD_A_MIXED] {
        writes(|table| read_into(card, table, &NUMBERS_A), &case_a());
    }
    let mut numbers_e = [0; REQUEST_SIZE];
    (numbers_e[0], numbers_e[2], numbers_e[3]) = (4, 64, 64);
    (numbers_e[16], numbers_e[17]) = (1, 4);
    for card in [CARD_LEAVING, CARD_LEAVING_TWIN] {
        writes(
            |table| read_into(card, table, &numbers_e),
            &case_e_leaving(),
        );
    }
    for length in 0..CARD_A.len() {
        let card = &CARD_A[..length];
        let mut table = Lent::new(&FILL);
        let said = read_into(card, table.lend(), &NUMBERS_A);
        assert_eq!(said.map_err(|refusal| refusal.number), Err(11));
        table.holds(&FILL);
        // R92: the reader's refusal comes before R33.
        assert_eq!(read_into(card, &mut [], &NUMBERS_A), said);
    }
}
