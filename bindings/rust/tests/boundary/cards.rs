//! Cards that go over the boundary whole (R64 to R66).

use crate::lent::{writes, Lent, FILL};
use crate::samples::{
    late, refused, CARD_A, CARD_A_MIXED, CARD_A_OLD, CARD_J, CARD_LEAVING, CARD_LEAVING_TWIN,
};
use trimthuel::{answer, rewrite, run, Refusal, Rewritten, CARD_MAX, LINE_MAX};

/// The function on a card that is lent too, and stays.
fn of(
    call: fn(&[u8], &mut [u8]) -> Result<usize, Refusal>,
    card: &[u8],
) -> impl Fn(&mut [u8]) -> Result<usize, Refusal> + '_ {
    move |out| {
        let mut lent = Lent::new(card);
        let said = call(lent.lend(), out);
        lent.holds(card);
        said
    }
}

#[test]
fn r64_the_line() {
    for card in [CARD_A, CARD_A_OLD, CARD_A_MIXED] {
        writes(of(answer, card), b"release 13\n");
    }
    // R10: 40 and not 45, since the first line leaves.
    for card in [CARD_LEAVING, CARD_LEAVING_TWIN] {
        writes(of(answer, card), b"release 40\n");
    }
    writes(of(answer, b""), b"refused 11 0\n");
    // R57, R58: a record that is cut, as with TB.
    for mark in [b"TA", b"TL"] {
        let cut = [b"CK\0\0\0\0\0\0\0\0", &mark[..]].concat();
        writes(of(answer, &cut), b"refused 11 10\n");
    }
    let late = b"CK\xFF\xFF\xFF\xFF\xFF\xFF\xFF\xFFRQ\x01\0\x04\0";
    writes(of(answer, late), b"refused 1 0\n");
    assert_eq!(answer(CARD_A, &mut [0; LINE_MAX]), Ok(11));
}

/// R61, R103: the line of 10 has the tick and the excess behind the place. At the last clock at which a card can be asked, with the
/// greatest excess there is, it is as long as it gets.
#[test]
fn r64_the_line_of_a_card_that_is_late() {
    writes(of(answer, CARD_J), b"refused 10 0 3 2\n");
    let greatest: &[u8] = b"CK\0\0\xFF\xFF\xFF\xFF\0\0\
        TB\xFF\x7F\xFF\xFF\xFF\xFF\xFE\xFF\xFF\x7F\
        TB\xFF\x7F\xFF\xFF\xFF\xFF\0\0\0\0\
        RQ\x01\0\xFF\xFF";
    writes(
        of(answer, greatest),
        b"refused 10 0 281474976645121 32766\n",
    );
}

fn rewritten_length(card: &[u8], out: &mut [u8]) -> Result<usize, Refusal> {
    rewrite(card, out).map(|rewritten| rewritten.length)
}

#[test]
fn r65_a_card_is_written_as_its_twin() {
    for (card, turned) in [(CARD_A, 0), (CARD_A_OLD, 0b11), (CARD_A_MIXED, 0b10)] {
        writes(of(rewritten_length, card), CARD_A);
        let whole = Rewritten { length: 40, turned };
        assert_eq!(rewrite(card, &mut [0; CARD_MAX]), Ok(whole));
        let mut out = Lent::new(&FILL);
        assert_eq!(rewrite(&card[..39], out.lend()), refused(11, 34));
        // R65: the reader's refusal comes before R33.
        assert_eq!(rewrite(&card[..39], &mut []), refused(11, 34));
        out.holds(&FILL);
    }
}

/// R72: a TL record stands as it is.
#[test]
fn r65_a_card_with_every_mark() {
    for (card, turned) in [(CARD_LEAVING, 0b1000), (CARD_LEAVING_TWIN, 0)] {
        writes(of(rewritten_length, card), CARD_LEAVING_TWIN);
        let whole = Rewritten { length: 54, turned };
        assert_eq!(rewrite(card, &mut [0; CARD_MAX]), Ok(whole));
    }
}

/// R65: the slots that are named of a card with these records.
fn slots_of(records: &[&[u8]]) -> Vec<usize> {
    let card = [&CARD_A[..10], &records.concat(), &CARD_A[34..]].concat();
    let rewritten = rewrite(&card, &mut [0; CARD_MAX]).unwrap();
    rewritten.slots().collect()
}

#[test]
fn r65_the_slots_of_the_old_order() {
    let old: &[u8] = b"TA\x01\0\x02\0\x03\0\x04\0\x05\0";
    assert_eq!(slots_of(&[old; 16]), Vec::from_iter(0..16));
    assert_eq!(slots_of(&[&b"TF".repeat(15), old]), [15]);
    assert_eq!(slots_of(&[old, b"TF", old]), [0, 2]);
    let leaving: &[u8] = b"TL\x01\0\x02\0\x03\0\x04\0\x05\0";
    assert_eq!(slots_of(&[leaving, old, leaving]), [1]);
    assert_eq!(slots_of(&[leaving; 16]), []);
    assert_eq!(slots_of(&[]), []);
}

#[test]
fn r66_the_pump_runs() {
    assert_eq!(run(CARD_A, 0), Ok(0));
    assert_eq!(run(CARD_A, 26), Ok(23));
    assert_eq!(run(CARD_A, 56), Ok(53));
    assert_eq!(run(CARD_LEAVING, 56), Ok(42));
    assert_eq!(run(CARD_LEAVING_TWIN, 56), Ok(42));
    assert_eq!(run(b"CK", 1), refused(11, 0));
    assert_eq!(run(b"CK\0\0\0\0\0\0\0\0RQ\0\0\0\0", 1), refused(6, 0));
    assert_eq!(run(CARD_J, 56), late(3, 2));
    // R35: the last ask is 65,536 ticks before the last tick, so that no run gets there.
    let late = b"CK\0\0\xFF\xFF\xFF\xFF\0\0RQ\x01\0\x01\0";
    assert_eq!(run(late, u16::MAX), Ok(65_535));
}
