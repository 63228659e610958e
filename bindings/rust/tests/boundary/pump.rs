//! The pump that owns its table, and requests.

use crate::samples::{
    admitted, case_a, case_e_leaving, counted, image, leaving, ran_last, refused, running, BENCH,
    CARD_A, CARD_A_OLD, CARD_LEAVING, CARD_LEAVING_TWIN, DEPARTED, IDLE, LAST_TICK,
};
use trimthuel::{Answer, Pump, Refusal, Request, CARD_MAX, TABLE_SIZE};

static EMPTY: Pump = Pump::new();

#[test]
fn r4_a_new_pump_is_the_empty_table() {
    let mut written = [0xEE; TABLE_SIZE];
    assert_eq!(trimthuel::image::empty(&mut written), Ok(TABLE_SIZE));
    assert_eq!(EMPTY.image(), &written);
    assert_eq!(Pump::default(), EMPTY);
    assert_eq!(EMPTY.ready(), 0);
    assert_eq!((EMPTY.counts().sum(), EMPTY.counts().clock), (0, 0));
    assert_eq!(trimthuel::version(), trimthuel::VERSION);
}

/// A character for each tick.
pub fn row_of(pump: &mut Pump, ticks: usize) -> Result<String, Refusal> {
    let digit = |slot: usize| char::from_digit(slot as u32, 10).unwrap_or('?');
    let ticks = (0..ticks).map(|_| Ok(pump.step()?.map_or('.', digit)));
    ticks.collect()
}

/// What the driver's own history has after these words.
fn stored(words: &str) -> Option<&'static str> {
    let history = include_str!("../../../../histories/controller.history");
    history.lines().find_map(|line| line.strip_prefix(words))
}

/// R67, from the empty table to case A and on; the row is the one of the driver's own program.
#[test]
fn case_a_from_the_empty_table() -> Result<(), Refusal> {
    let mut pump = Pump::new();
    for slot in 0..2 {
        let line = pump.request(8, 16);
        assert_eq!(pump.admit(&line), Ok(Answer { start: 0, slot }));
    }
    assert_eq!(pump.ready(), 0b11);
    for _ in 0..8 {
        assert_eq!(pump.step(), Ok(Some(0)));
    }
    // R97, R105: the first line has had all ticks so far.
    let ran = |table| ran_last(counted(table, &[(0, 8)]), 0);
    assert_eq!(pump.image(), &ran(case_a()));
    let bench = pump.request(1, 4).stretch(0, 32);
    assert_eq!(bench, BENCH);
    let answer = Answer { start: 13, slot: 2 };
    assert_eq!(pump.ask(&bench), Ok(answer));
    assert_eq!(pump.image(), &ran(case_a()));
    assert_eq!(pump.admit(&bench), Ok(answer));
    assert_eq!(pump.image(), &ran(admitted()));
    let row = row_of(&mut pump, 56)?;
    assert_eq!(stored("step 56: "), Some(row.as_str()));
    // R79: each count is how often the row names it, the first eight ticks before it.
    let named = |mark: char| row.chars().filter(|ran| *ran == mark).count() as u64;
    let counts = pump.counts();
    let had = [8 + named('0'), named('1'), named('2')];
    assert_eq!((&counts.had[..3], counts.idle), (&had[..], named('.')));
    assert_eq!((counts.sum(), counts.clock), (64, 64));
    // R100: the second line is let go at the beginning of a period, and has all of it.
    assert_eq!(pump.leave(1), Ok(16));
    assert_eq!(pump.leave(1), refused(16, 1));
    let last = row_of(&mut pump, 16)?;
    assert_eq!(stored("step 16: "), Some(last.as_str()));
    let counts = pump.counts();
    assert_eq!((counts.had[1], counts.departed), (0, named('1') + 8));
    assert_eq!((counts.sum(), counts.clock), (80, 80));
    assert_eq!(pump.leave(1), refused(16, 1));
    assert_eq!(pump.leave(usize::MAX), refused(16, usize::MAX));
    Ok(())
}

#[test]
fn r17_a_refusal_changes_nothing() {
    let mut pump = Pump::from_image(&case_a()).unwrap();
    let before = pump.clone();
    // R25, R26, R28.
    assert_eq!(pump.admit(&Request::new(1, 4)), refused(5, 0));
    assert_eq!(pump.admit(&BENCH.stretch(1, 15)), refused(5, 1));
    assert_eq!(pump.admit(&pump.request(5, 4)), refused(6, 0));
    assert_eq!(pump.admit(&pump.request(1, 4)), refused(8, 0));
    assert_eq!(pump.write_card(&BENCH, &mut [0; 39]), refused(13, 0));
    assert_eq!(pump.leave(2), refused(16, 2));
    assert_eq!(pump.leave(16), refused(16, 16));
    assert_eq!(pump, before);
    let mut last = Pump::from_image(&image(LAST_TICK, &[])).unwrap();
    assert_eq!(last.step(), refused(15, 0));
    assert_eq!(last.admit(&Request::new(1, 4)), refused(1, 0));
}

#[test]
fn r23_a_waiting_line_is_kept_in_the_image_and_refused_on_a_card() {
    let mut pump = Pump::from_image(&admitted()).unwrap();
    assert_eq!(pump.image(), &admitted());
    assert_eq!(pump.ask(&pump.request(1, 64)), refused(3, 2));
    // R59: before a buffer that is too short.
    assert_eq!(pump.write_card(&BENCH, &mut []), refused(3, 2));
    for _ in 0..5 {
        assert_eq!(pump.step(), Ok(Some(1)));
    }
    assert_eq!(pump.write_card(&BENCH, &mut [0; CARD_MAX]), Ok(52));
}

#[test]
fn r72_there_and_back() {
    let (pump, request) = Pump::from_card(CARD_A).unwrap();
    assert_eq!((pump.image(), request), (&case_a(), BENCH));
    // R72: a table that was read has every count 0 and no last slot, whatever the one that was written had.
    let full = ran_last(counted(case_a(), &[(0, 8), (9, u64::MAX)]), 0);
    let full = Pump::from_image(&full).unwrap();
    let mut card = [0; CARD_MAX];
    assert_eq!(full.write_card(&request, &mut card), Ok(40));
    assert_eq!(&card[..40], CARD_A);
    let mut card = [0; CARD_MAX];
    assert_eq!(pump.write_card(&request, &mut card), Ok(40));
    assert_eq!(&card[..40], CARD_A);
    assert_eq!(Pump::from_card(&CARD_A[..39]), refused(11, 34));
    assert_eq!(Pump::from_card(CARD_A_OLD), Ok((pump, request)));
    assert_eq!(Pump::from_card(b"CK\0\0\0\0\0\0\0\0TA"), refused(11, 10));
}

/// R53, R72: a line that leaves does so on the card too, and what is gone is not counted there.
#[test]
fn r72_there_and_back_with_a_line_that_leaves() {
    let (pump, request) = Pump::from_card(CARD_LEAVING).unwrap();
    assert_eq!(pump.image(), &case_e_leaving());
    assert_eq!(Pump::from_card(CARD_LEAVING_TWIN), Ok((pump, request)));
    let had = [(0, 4), (IDLE, 1), (DEPARTED, u64::MAX)];
    let full = Pump::from_image(&counted(case_e_leaving(), &had)).unwrap();
    let mut card = [0; CARD_MAX];
    assert_eq!(full.write_card(&request, &mut card), Ok(54));
    assert_eq!(&card[..54], CARD_LEAVING_TWIN);
}

#[test]
fn every_slot_keeps_its_period() {
    let kinds = [running, leaving];
    let lines: Vec<_> = (0..15)
        .map(|slot| (slot, kinds[slot % 2](1, 1000 + slot as u16, 0, 1)))
        .collect();
    let pump = Pump::from_image(&image(0, &lines)).unwrap();
    let Request { stretched, .. } = pump.request(1, 4);
    assert_eq!(stretched[..15], Vec::from_iter(1000..1015));
    assert_eq!(stretched[15], 0);
}
