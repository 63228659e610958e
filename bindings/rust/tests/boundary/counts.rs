//! The counts (R95 to R98) on images: what is refused by them, what a tick and an admission do to them, and what is shown.

use crate::lent::Lent;
use crate::samples::{
    admitted, case_a, counted, image, refused, running, waiting, Image, BENCH, DEPARTED, IDLE,
    LAST_TICK,
};
use trimthuel::image::{admit, ask, counts, leave, ready, step, write_card};
use trimthuel::{Answer, CARD_MAX, COUNTS};

/// R24: ask, admit, step and leave refuse these bytes alike, and leave them.
#[track_caller]
fn refuses(table: Image, place: usize) {
    let mut lent = Lent::new(&table);
    assert_eq!(ask(lent.lend(), &BENCH), refused(4, place));
    assert_eq!(admit(lent.lend(), &BENCH), refused(4, place));
    assert_eq!(step(lent.lend()), refused(4, place));
    assert_eq!(leave(lent.lend(), 0), refused(4, place));
    assert_eq!(leave(lent.lend(), u64::MAX), refused(4, place));
    lent.holds(&table);
}

#[test]
fn r96_equal_to_the_clock_and_one_above() {
    let granted = Ok(Answer { start: 13, slot: 2 });
    for place in 0..COUNTS {
        let other = (place + 1) % COUNTS;
        for (one, rest) in [(8, 0), (5, 3), (0, 0)] {
            let table = counted(case_a(), &[(place, one), (other, rest)]);
            assert_eq!(ask(&table, &BENCH), granted);
            assert_eq!(step(&mut table.clone()), Ok(Some(1)));
            assert_eq!(leave(&mut table.clone(), 1), Ok(8));
        }
        refuses(counted(case_a(), &[(place, 9)]), 0);
        refuses(counted(case_a(), &[(place, 5), (other, 4)]), 0);
    }
}

#[test]
fn r96_a_sum_that_does_not_wrap() {
    let all = |ticks: u64| Vec::from_iter((0..COUNTS).map(|place| (place, ticks)));
    let sums = [
        vec![(0, 1 << 63), (1, 1 << 63)],
        vec![(15, 1 << 63), (IDLE, 1 << 63)],
        vec![(IDLE, 1 << 63), (DEPARTED, 1 << 63)],
        all(1 << 60)[..16].to_vec(),
        all(1 << 60)[2..].to_vec(),
        vec![(0, u64::MAX), (1, 1)],
        vec![(3, 1), (IDLE, u64::MAX)],
        vec![(3, 1), (DEPARTED, u64::MAX)],
        vec![(5, u64::MAX), (6, 9)],
        all(u64::MAX),
    ];
    for sum in sums {
        refuses(counted(case_a(), &sum), 0);
    }
}

#[test]
fn r24_a_line_before_the_counts() {
    let lines = [
        (0, running(8, 16, 8, 0)),
        (1, running(8, 16, 16, 8)),
        (5, running(0, 16, 0, 0)),
    ];
    let over = [(IDLE, u64::MAX)];
    refuses(counted(image(8, &lines), &over), 1);
    refuses(counted(image(8, &lines[2..]), &over), 5);
    refuses(counted(image(8, &lines[..1]), &over), 0);
}

/// R18: 1, 2 and 3 come before the counts, and 5 after them.
#[test]
fn r18_other_grounds_of_ask() {
    let over = |table| counted(table, &[(0, u64::MAX)]);
    let asked =
        |table, number, place| assert_eq!(ask(&over(table), &BENCH), refused(number, place));
    let full: Vec<_> = (0..16).map(|slot| (slot, running(1, 64, 0, 1))).collect();
    asked(image(LAST_TICK, &[]), 1, 0);
    asked(image(8, &full), 2, 0);
    asked(image(8, &[(3, waiting(1, 4, 5))]), 3, 3);
    let shorter = BENCH.stretch(1, 15);
    assert_eq!(ask(&over(case_a()), &shorter), refused(4, 0));
    assert_eq!(ask(&case_a(), &shorter), refused(5, 1));
}

/// R48: 15 comes before the counts, and 14 after them.
#[test]
fn r48_other_grounds_of_a_step() {
    let over = |table| counted(table, &[(0, u64::MAX)]);
    assert_eq!(step(&mut over(image(LAST_TICK, &[]))), refused(15, 0));
    let late = [(0, running(1, 4, 3, 1)), (5, running(1, 4, 3, 1))];
    assert_eq!(step(&mut over(image(8, &late))), refused(4, 0));
    assert_eq!(step(&mut image(8, &late)), refused(14, 5));
}

/// R89, R91, R98: who does not test the counts.
#[test]
fn r98_any_counts_are_shown() {
    let all: Vec<_> = (0..COUNTS).map(|k| (k, u64::MAX - k as u64)).collect();
    let table = counted(case_a(), &all);
    let shown = counts(&table).unwrap();
    assert_eq!(shown.had, std::array::from_fn(|k| u64::MAX - k as u64));
    assert_eq!((shown.idle, shown.clock), (u64::MAX - 16, 8));
    assert_eq!(shown.departed, u64::MAX - 17);
    // 0 to 17 add up to 153.
    assert_eq!(shown.sum(), 18 * u128::from(u64::MAX) - 153);
    assert_eq!(ready(&table), Ok(0b10));
    assert_eq!(write_card(&table, &BENCH, &mut [0; CARD_MAX]), Ok(40));
}

/// R42: the new line's slot alone is set to 0, whatever stood there; a stretched line keeps its own.
#[test]
fn r42_an_admission_sets_one_count_to_0() {
    let mut all: Vec<_> = (0..COUNTS).map(|k| (k, 1 << 40)).collect();
    let late = |mut table: Image| {
        table[1..9].copy_from_slice(&(18_u64 << 40).to_le_bytes());
        table
    };
    let mut table = counted(late(case_a()), &all);
    let start = (18 << 40) + 5;
    assert_eq!(admit(&mut table, &BENCH), Ok(Answer { start, slot: 2 }));
    all[2] = (2, 0);
    assert_eq!(table, counted(late(admitted()), &all));
}

/// R97: the start of a waiting line and the end of a period change no count, and the line is counted from its first tick on.
#[test]
fn r97_each_tick_is_counted_once() {
    let mut table = image(4, &[(3, waiting(1, 2, 1)), (6, running(1, 4, 3, 0))]);
    let mut ticks = Vec::new();
    for _ in 0..6 {
        step(&mut table).unwrap();
        let shown = counts(&table).unwrap();
        ticks.push([shown.had[3], shown.had[6], shown.idle]);
    }
    let wanted = [
        [0, 0, 1],
        [1, 0, 1],
        [1, 1, 1],
        [2, 1, 1],
        [2, 1, 2],
        [3, 1, 2],
    ];
    assert_eq!(ticks, wanted);
}
