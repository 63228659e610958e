//! The last slot (R105 to R107), on images: who goes on where periods end together, and what becomes of it.

use crate::lent::Lent;
use crate::pump::row_of;
use crate::samples::{
    admitted, case_a, case_j, counted, image, late, leaving, ran_last, refused, running, waiting,
    Image, Line, BENCH, BENCH_J, LAST_TICK, NONE,
};
use std::ops::RangeInclusive;
use trimthuel::image::{admit, ask, leave, step, write_card};
use trimthuel::{Answer, Pump, Refusal};

/// R105: any value may stand there.
const ANY: RangeInclusive<u8> = 0..=255;

/// Slots 2, 5 and 9 are owed ticks and end in 3. Slots 0 and 15 end later; of those that end by then 1 and 7 are owed nothing,
/// and 11 waits. The same a tick later, if a slot ran.
fn ends_together(ran: Option<usize>) -> Image {
    let passed = u16::from(ran.is_some());
    let owed = |slot, ticks| ticks - u16::from(ran == Some(slot));
    let lines = [
        (0, running(2, 9, 5 + passed, 1)),
        (1, running(1, 4, 2 + passed, 0)),
        (2, running(4, 8, 5 + passed, owed(2, 2))),
        (5, leaving(1, 4, 1 + passed, owed(5, 1))),
        (7, running(1, 4, 1 + passed, 0)),
        (9, running(3, 16, 13 + passed, owed(9, 3))),
        (11, waiting(1, 4, 3 - passed)),
        (15, running(2, 9, 5 + passed, 1)),
    ];
    image(20 + u64::from(passed), &lines)
}

#[test]
fn r44_who_ran_goes_on() {
    for last in ANY {
        let ran = if [2, 5, 9].contains(&last) { last } else { 2 };
        let slot = usize::from(ran);
        let mut lent = Lent::new(&ran_last(ends_together(None), last));
        assert_eq!(step(lent.lend()), Ok(Some(slot)));
        let next = counted(ends_together(Some(slot)), &[(slot, 1)]);
        lent.holds(&ran_last(next, ran));
    }
}

/// A tick of these lines, whatever the last slot is: who gets it, and what the last slot is then.
#[track_caller]
fn tick(lines: &[(usize, Line)], ran: Option<usize>, last: u8) {
    for before in ANY {
        let mut table = ran_last(image(8, lines), before);
        assert_eq!((step(&mut table), table[297]), (Ok(ran), last));
    }
}

#[test]
fn r105_a_tick_and_an_idle_tick() {
    for slot in 0..16 {
        tick(&[(slot, running(1, 4, 0, 1))], Some(slot), slot as u8);
        tick(&[(slot, running(1, 4, 0, 0))], None, NONE);
    }
    tick(&[], None, NONE);
    // R46, R47: the end of a period, and of a wait.
    let ends = running(1, 4, 3, 1);
    tick(&[(3, ends)], Some(3), 3);
    tick(&[(3, ends), (2, waiting(1, 4, 1))], Some(3), 3);
}

/// R46: a line that is gone with the tick that it got, with one that another got, and with one that none got.
#[test]
fn r105_a_line_that_is_gone() {
    let (served, gone) = (leaving(1, 4, 3, 1), leaving(1, 4, 3, 0));
    let stays = running(1, 4, 0, 1);
    tick(&[(3, served)], Some(3), NONE);
    tick(&[(3, served), (4, stays)], Some(3), NONE);
    tick(&[(3, gone), (4, served)], Some(4), NONE);
    tick(&[(3, gone), (4, stays)], Some(4), 4);
    tick(&[(3, stays), (4, gone)], Some(3), 3);
    tick(&[(3, gone)], None, NONE);
}

/// R107: the answer is the same, and an admission keeps it, also where it is the new line's slot.
#[test]
fn r107_ask_and_admit() {
    let answer = Ok(Answer { start: 13, slot: 2 });
    for last in ANY {
        let mut table = ran_last(case_a(), last);
        assert_eq!(ask(&table, &BENCH), answer);
        assert_eq!(admit(&mut table, &BENCH), answer);
        assert_eq!(table, ran_last(admitted(), last));
    }
}

/// Whatever the last slot is, the call says what it says, and leaves every byte.
#[track_caller]
fn stays(table: Image, call: impl Fn(&mut [u8])) {
    for table in ANY.map(|last| ran_last(table, last)) {
        let mut lent = Lent::new(&table);
        call(lent.lend());
        lent.holds(&table);
    }
}

/// R105: no value of it is a ground.
#[test]
fn r105_refusals() {
    stays(case_j(), |t| assert_eq!(ask(t, &BENCH_J), late(3, 2)));
    stays(case_j(), |t| assert_eq!(admit(t, &BENCH_J), late(3, 2)));
    let end = image(LAST_TICK, &[]);
    stays(end, |t| assert_eq!(admit(t, &BENCH), refused(1, 0)));
    stays(end, |t| assert_eq!(step(t), refused(15, 0)));
    stays(end, |t| assert_eq!(leave(t, 0), refused(16, 0)));
    let unsound = image(8, &[(3, running(0, 4, 0, 0))]);
    stays(unsound, |t| assert_eq!(step(t), refused(4, 3)));
    stays(unsound, |t| assert_eq!(leave(t, 3), refused(4, 3)));
}

/// R56, R72: a card carries none, and what is read from it has none.
#[test]
fn r56_a_card() {
    stays(case_a(), |table| {
        let mut card = [0; 40];
        assert_eq!(write_card(table, &BENCH, &mut card), Ok(40));
        let (read, _) = Pump::from_card(&card).unwrap();
        assert_eq!(read.image(), &case_a());
    });
}

/// R106: after the first tick of slot 1 both periods end with tick 4. The lowest slot first would be 0101.
#[test]
fn r106_a_valve_stays_open() -> Result<(), Refusal> {
    let mut pump = Pump::new();
    pump.admit(&pump.request(1, 2))?;
    pump.admit(&pump.request(2, 4))?;
    assert_eq!(row_of(&mut pump, 8)?, "01100110");
    Ok(())
}

/// R106: what is done between two ticks. Slot 1 has run, and both periods end with tick 8.
#[test]
fn r106_whatever_is_done_between() -> Result<(), Refusal> {
    let between: [fn(&mut Pump) -> bool; 7] = [
        |_| true,
        |pump| pump.ask(&pump.request(1, 16)).is_ok(),
        |pump| pump.admit(&pump.request(1, 16)).is_ok(),
        |pump| pump.admit(&pump.request(5, 4)).is_err(),
        |pump| pump.leave(0).is_ok(),
        |pump| pump.leave(1).is_ok(),
        |pump| pump.leave(2).is_err(),
    ];
    for act in between {
        let mut pump = Pump::new();
        pump.admit(&pump.request(1, 4))?;
        pump.admit(&pump.request(4, 8))?;
        assert_eq!(row_of(&mut pump, 4)?, "0111");
        assert!(act(&mut pump));
        assert_eq!(row_of(&mut pump, 2)?, "10");
    }
    Ok(())
}
