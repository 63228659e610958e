//! Lines that are let go (R100 to R102), on images: what is answered, and what becomes of the line and of what it has had.

use crate::lent::Lent;
use crate::samples::{
    admitted, case_e_leaving, counted, image, leaving, offset, ran_last, refused, running, waiting,
    Image, CARD_LEAVING_TWIN, DEPARTED, IDLE, LAST_TICK, NONE,
};
use trimthuel::image::{admit, ask, counts, leave, ready, step, write_card};
use trimthuel::{Answer, Request, SLOTS};

/// The number is granted so many ticks, and then these bytes stand in the place of the others.
#[track_caller]
fn goes(table: Image, number: u64, ticks: u64, after: Image) {
    let mut lent = Lent::new(&table);
    assert_eq!(leave(lent.lend(), number), Ok(ticks));
    lent.holds(&after);
}

/// The number is refused so, and every byte stays.
#[track_caller]
fn stays(table: Image, number: u64, refusal: u16, place: u64) {
    let mut lent = Lent::new(&table);
    let said = leave(lent.lend(), number);
    let said = said.map_err(|refusal| (refusal.number, refusal.place));
    assert_eq!(said, Err((refusal, place)));
    lent.holds(&table);
}

/// Lines of each kind, and counts beside them and beside an empty slot.
fn lines(clock: u64) -> Image {
    let lines = [
        (3, running(8, 16, 8, 5)),
        (4, leaving(1, 4, 3, 0)),
        (6, waiting(2, 9, 4)),
    ];
    counted(
        image(clock, &lines),
        &[(3, 4), (9, 2), (IDLE, 1), (DEPARTED, 1)],
    )
}

/// R100: the line's kind alone changes, at every age.
#[test]
fn r100_a_running_line() {
    for age in 0..16 {
        let before = image(99, &[(3, running(8, 16, age, 5)), (7, running(1, 4, 0, 1))]);
        let after = image(99, &[(3, leaving(8, 16, age, 5)), (7, running(1, 4, 0, 1))]);
        let had = [(3, 40), (7, 1), (9, 7), (IDLE, 12), (DEPARTED, 5)];
        goes(
            counted(before, &had),
            3,
            16 - u64::from(age),
            counted(after, &had),
        );
    }
    let (whole, gone) = (running(1, 65_535, 0, 1), leaving(1, 65_535, 0, 1));
    goes(
        image(0, &[(15, whole)]),
        15,
        65_535,
        image(0, &[(15, gone)]),
    );
}

/// R100, R101: it is gone at once, and so is what stands beside it.
#[test]
fn r100_a_waiting_line() {
    let mut after = lines(20);
    after[offset(6)..offset(7)].fill(0);
    goes(lines(20), 6, 0, after);
    let had = |ticks, departed| [(6, ticks), (DEPARTED, departed)];
    goes(
        counted(lines(20), &had(5, 1)),
        6,
        0,
        counted(after, &had(0, 6)),
    );
    let most = image(u64::MAX, &[(0, waiting(1, 4, 1))]);
    let gone = counted(image(u64::MAX, &[]), &[(DEPARTED, u64::MAX)]);
    goes(counted(most, &[(0, u64::MAX)]), 0, 0, gone);
}

/// R105: the last slot is kept, whatever it is, but for that of the line that is removed.
#[test]
fn r105_the_last_slot() {
    for slot in 0..=255 {
        let before = ran_last(lines(20), slot);
        let mut asked = before;
        asked[offset(3)] = 3;
        goes(before, 3, 8, asked);
        let kept = if slot == 6 { NONE } else { slot };
        let mut removed = ran_last(lines(20), kept);
        removed[offset(6)..offset(7)].fill(0);
        goes(before, 6, 0, removed);
        stays(before, 4, 16, 4);
    }
}

/// R36: an empty slot, one whose line leaves already, and numbers that are no slot's; the place is the number, not cut.
#[test]
fn r36_nobody_to_let_go() {
    for number in (0..16).filter(|number| ![3, 6].contains(number)) {
        stays(lines(20), number, 16, number);
    }
    for number in [16, 17, 255, 256, 65_535, u64::from(u32::MAX), u64::MAX] {
        stays(lines(20), number, 16, number);
    }
    for bit in 4..64 {
        stays(lines(20), 3 | 1 << bit, 16, 3 | 1 << bit);
    }
    let mut twice = lines(20);
    assert_eq!(leave(&mut twice, 3), Ok(8));
    stays(twice, 3, 16, 3);
}

/// R24: both parts come before R36, the lines first.
#[test]
fn r24_before_r36() {
    let over = counted(lines(20), &[(IDLE, 14)]);
    let mut unsound = over;
    let other = image(0, &[(11, leaving(1, 4, 4, 0))]);
    unsound[offset(11)..offset(12)].copy_from_slice(&other[offset(11)..offset(12)]);
    for number in [3, 4, 5, 6, 11, 16, u64::MAX] {
        stays(over, number, 4, 0);
        stays(unsound, number, 4, 11);
    }
}

/// R100: neither R21 nor R35 is looked at.
#[test]
fn r100_at_any_clock() {
    for clock in [LAST_TICK - 65_535, LAST_TICK, LAST_TICK + 1, u64::MAX] {
        let mut after = lines(clock);
        after[offset(3)] = 3;
        goes(lines(clock), 3, 8, after);
        stays(lines(clock), 16, 16, 16);
    }
}

/// R46, R101: asked at age 0 a line has that whole period; its last tick is counted, and then its slot holds nothing.
#[test]
fn r46_up_to_its_end() {
    let begun = image(20, &[(2, running(1, 4, 2, 0)), (5, running(2, 4, 0, 2))]);
    let mut table = counted(begun, &[(2, 3), (5, 6), (9, 7)]);
    assert_eq!(leave(&mut table, 5), Ok(4));
    let ran: Vec<_> = (0..3).map(|_| step(&mut table).unwrap()).collect();
    assert_eq!(ran, [Some(5), Some(5), Some(2)]);
    let last = [(2, running(1, 4, 1, 0)), (5, leaving(2, 4, 3, 0))];
    let last = counted(image(23, &last), &[(2, 4), (5, 8), (9, 7)]);
    assert_eq!(table, ran_last(last, 2));
    assert_eq!(step(&mut table), Ok(None));
    let gone = [(2, 4), (9, 7), (IDLE, 1), (DEPARTED, 8)];
    assert_eq!(
        table,
        counted(image(24, &[(2, running(1, 4, 2, 0))]), &gone)
    );
}

#[test]
fn r101_several_at_once_and_the_last_tick() {
    let ends = [
        (0, leaving(2, 4, 3, 1)),
        (4, running(2, 4, 3, 0)),
        (15, leaving(1, 2, 1, 0)),
    ];
    let mut table = counted(image(99, &ends), &[(0, 10), (4, 20), (15, 30), (9, 7)]);
    assert_eq!(step(&mut table), Ok(Some(0)));
    let after = image(100, &[(4, running(2, 4, 0, 2))]);
    assert_eq!(table, counted(after, &[(4, 20), (9, 7), (DEPARTED, 41)]));
}

/// R34: a last period may end short.
#[test]
fn r34_a_last_period_that_ends_short() {
    let late = [(3, running(1, 4, 3, 1)), (5, leaving(1, 4, 3, 1))];
    let mut lent = Lent::new(&image(8, &late));
    assert_eq!(step(lent.lend()), refused(14, 5));
    lent.holds(&image(8, &late));
}

/// R43: at the clock at which a line is gone its slot can be had, with nothing counted.
#[test]
fn r43_its_slot_is_free_at_its_end() {
    let full: Vec<_> = (0..16).map(|slot| (slot, running(1, 16, 0, 0))).collect();
    let mut table = counted(image(50, &full), &[(6, 20)]);
    table[offset(6)..offset(7)].copy_from_slice(&[3, 1, 0, 16, 0, 15, 0, 0, 0]);
    let request = Request {
        stretched: [16; SLOTS],
        ..Request::new(1, 16)
    };
    assert_eq!(ask(&table, &request), refused(2, 0));
    assert_eq!(step(&mut table), Ok(None));
    let answer = Answer { start: 51, slot: 6 };
    assert_eq!(admit(&mut table, &request), Ok(answer));
    let shown = counts(&table).unwrap();
    assert_eq!((shown.had[6], shown.idle, shown.departed), (0, 1, 20));
}

/// R25: a line that leaves keeps its period; of both breaches the lowest slot is named.
#[test]
fn r25_its_period_is_kept() {
    let lines = [
        (0, running(1, 16, 0, 1)),
        (1, leaving(1, 16, 0, 1)),
        (2, leaving(1, 16, 0, 1)),
        (3, running(1, 16, 0, 1)),
    ];
    let (table, mut kept) = (image(9, &lines), Request::new(1, 4));
    kept.stretched[..4].fill(16);
    let granted = Ok(Answer { start: 9, slot: 4 });
    assert_eq!(ask(&table, &kept), granted);
    assert_eq!(ask(&table, &kept.stretch(0, 17).stretch(3, 32)), granted);
    for other in [0, 15, 17, 32, u16::MAX] {
        assert_eq!(ask(&table, &kept.stretch(2, other)), refused(5, 2));
        assert_eq!(
            ask(&table, &kept.stretch(2, other).stretch(3, 15)),
            refused(5, 2)
        );
        assert_eq!(
            ask(&table, &kept.stretch(2, other).stretch(0, 15)),
            refused(5, 0)
        );
    }
}

/// R10, R42: one end alone is counted, and an admission keeps what follows. R49, R53: its bit, and its mark.
#[test]
fn r10_case_e() {
    let request = Request::new(1, 4)
        .stretch(0, 4)
        .stretch(2, 64)
        .stretch(3, 64);
    let answer = |start| Ok(Answer { start, slot: 1 });
    let mut table = case_e_leaving();
    assert_eq!(ask(&table, &request), answer(40));
    assert_eq!(ready(&table), Ok(0b101));
    let mut card = [0; 54];
    assert_eq!(write_card(&table, &request, &mut card), Ok(54));
    assert_eq!(card, CARD_LEAVING_TWIN);
    let mut renewing = table;
    renewing[offset(0)] = 1;
    assert_eq!(ask(&renewing, &request), answer(45));
    assert_eq!(admit(&mut table, &request), answer(40));
    let lines = [
        (0, leaving(1, 4, 0, 1)),
        (1, running(1, 4, 0, 1)),
        (2, running(16, 64, 52, 8)),
        (3, running(16, 64, 12, 0)),
    ];
    assert_eq!(table, image(40, &lines));
}

/// R10: what a line that leaves is owed is wanted for good. Were it wanted no more after its end, the start would be 0.
#[test]
fn r10_wanted_for_good() {
    let lines = [
        (0, leaving(2, 8, 6, 2)),
        (1, running(2, 8, 4, 2)),
        (2, running(4, 16, 0, 0)),
    ];
    let request = Request::new(1, 4)
        .stretch(0, 8)
        .stretch(1, 8)
        .stretch(2, 16);
    let answer = Ok(Answer { start: 1, slot: 3 });
    assert_eq!(ask(&image(0, &lines), &request), answer);
}

/// R75: a line that waits for its start, removed and asked for again.
#[test]
fn r100_a_bench_that_waits() {
    let mut table = admitted();
    assert_eq!(leave(&mut table, 2), Ok(0));
    let lines = [(0, running(8, 32, 8, 0)), (1, running(8, 16, 8, 8))];
    assert_eq!(table, image(8, &lines));
    let request = Request::new(1, 4).stretch(0, 32).stretch(1, 16);
    assert_eq!(
        admit(&mut table, &request),
        Ok(Answer { start: 13, slot: 2 })
    );
    assert_eq!(table, admitted());
}
