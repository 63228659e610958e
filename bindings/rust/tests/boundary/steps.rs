//! Steps and their refusals (R48), on images.

use crate::lent::Lent;
use crate::samples::{
    admitted, counted, image, offset, ran_last, refused, running, waiting, Image, IDLE, LAST_TICK,
};
use trimthuel::image::step;
use trimthuel::Refusal;

/// R17: a refused step leaves every byte.
#[track_caller]
fn stays(table: Image, refusal: Result<Option<usize>, Refusal>) {
    let mut lent = Lent::new(&table);
    assert_eq!(step(lent.lend()), refusal);
    lent.holds(&table);
}

#[test]
fn r35_the_last_tick() {
    let mut table = image(LAST_TICK - 1, &[]);
    assert_eq!(step(&mut table), Ok(None));
    assert_eq!(table, counted(image(LAST_TICK, &[]), &[(IDLE, 1)]));
    for clock in [LAST_TICK, LAST_TICK + 1, u64::MAX] {
        stays(image(clock, &[]), refused(15, 0));
        // R48: before an unsound line and a period that ends short.
        stays(image(clock, &[(1, running(0, 4, 0, 0))]), refused(15, 0));
    }
}

#[test]
fn r24_an_unsound_line() {
    let lines = [
        (0, running(1, 4, 3, 1)),
        (1, running(1, 4, 3, 1)),
        (11, running(2, 4, 4, 1)),
        (13, waiting(1, 4, 0)),
    ];
    stays(image(0, &lines), refused(4, 11));
    stays(image(0, &lines[3..]), refused(4, 13));
}

#[test]
fn r34_a_period_that_ends_short() {
    let late = running(1, 4, 3, 1);
    let table = image(0, &[(0, late), (5, late), (14, late)]);
    stays(table, refused(14, 5));
    // R44: where another line goes on, slot 0 is the first that is short.
    stays(ran_last(table, 0), refused(14, 5));
    stays(ran_last(table, 14), refused(14, 0));
}

#[test]
fn r44_none_is_owed() {
    let mut table = image(0, &[(7, running(1, 4, 1, 0))]);
    assert_eq!(step(&mut table), Ok(None));
    let next = image(1, &[(7, running(1, 4, 2, 0))]);
    assert_eq!(table, counted(next, &[(IDLE, 1)]));
}

#[test]
fn r47_a_waiting_line_is_carried_and_starts() {
    let mut table = admitted();
    for wait in (0..5).rev() {
        assert_eq!(step(&mut table), Ok(Some(1)));
        let line = match wait {
            0 => running(1, 4, 0, 1),
            _ => waiting(1, 4, wait),
        };
        let only = image(0, &[(2, line)]);
        let slot = offset(2)..offset(3);
        assert_eq!(table[slot.clone()], only[slot]);
    }
}
