//! By how much it is late (R103, R104), on images: what refusal 10 says, and that nothing else says it.

use crate::lent::Lent;
use crate::samples::{
    case_j, image, late, leaving, refused, running, Image, Line, BENCH_J, LAST_TICK,
};
use trimthuel::image::{admit, ask, step};
use trimthuel::{Pump, Request};

/// A line that owes nothing in a whole period: R29 lets others owe as much as its need.
const SPARE: Line = (1, [10, 20, 0, 0]);

/// Lines from slot 0 up.
fn table(clock: u64, lines: &[Line]) -> Image {
    let lines: Vec<_> = lines.iter().copied().enumerate().collect();
    image(clock, &lines)
}

/// A request with which every line keeps its period.
fn kept(table: &Image, need: u16, period: u16) -> Request {
    let pump = Pump::from_image(table).expect("an image");
    pump.request(need, period)
}

/// Ask and admit say this tick and this excess, and leave every byte.
#[track_caller]
fn says(table: Image, request: &Request, tick: u64, excess: u32) {
    let mut lent = Lent::new(&table);
    assert_eq!(ask(lent.lend(), request), late(tick, excess));
    assert_eq!(admit(lent.lend(), request), late(tick, excess));
    lent.holds(&table);
}

#[test]
fn r103_case_j() {
    says(case_j(), &BENCH_J, 3, 2);
    let mut pump = Pump::from_image(&case_j()).unwrap();
    assert_eq!(pump.ask(&BENCH_J), late(3, 2));
    assert_eq!(pump.admit(&BENCH_J), late(3, 2));
    assert_eq!(pump.image(), &case_j());
}

/// The tick is absolute, as the clock is, and has 64 bits.
#[test]
fn r103_at_every_clock() {
    for clock in [0, 1, 100, 1 << 32, LAST_TICK - 65_536] {
        let lines = table(clock, &[running(4, 20, 17, 4), SPARE]);
        says(lines, &kept(&lines, 1, 4), clock + 3, 1);
    }
}

/// At 3 five ticks are wanted, and at 7 eleven: the first in time is said, whichever slot has it and however great the other is.
#[test]
fn r103_the_first_in_time() {
    let (soon, later) = (running(5, 20, 17, 5), running(6, 20, 13, 6));
    let spare = running(15, 40, 0, 0);
    for lines in [[later, soon, spare], [soon, later, spare]] {
        let lines = table(0, &lines);
        says(lines, &kept(&lines, 1, 40), 3, 2);
    }
}

/// At its T the line would end at 3, and at its T' it does at 7.
#[test]
fn r103_at_the_stretched_period() {
    let lines = table(0, &[running(8, 20, 17, 8), SPARE]);
    let request = kept(&lines, 1, 24);
    says(lines, &request.stretch(0, 24), 7, 1);
    says(lines, &request, 3, 5);
}

/// Two lines that end together are each in time, and both of them are not.
#[test]
fn r103_all_that_is_wanted_by_then() {
    let lines = [running(3, 20, 16, 3), running(2, 20, 16, 2), SPARE];
    let lines = table(50, &lines);
    says(lines, &kept(&lines, 1, 4), 54, 1);
}

/// The end of a line that leaves, and one after it is gone: what it was owed is wanted for good (R10).
#[test]
fn r103_a_line_that_leaves() {
    let lines = table(9, &[leaving(5, 20, 17, 5), SPARE]);
    says(lines, &kept(&lines, 1, 4), 12, 2);
    let lines = [leaving(3, 20, 17, 3), running(5, 20, 13, 5), SPARE];
    let lines = table(9, &lines);
    says(lines, &kept(&lines, 1, 20), 16, 1);
}

/// R18: where another ground comes before 10 it says nothing of it, though the same lines are late.
#[test]
fn r103_no_other_refusal() {
    let j = case_j();
    for (need, period, number) in [(0, 4, 6), (1, 50_021, 7), (6, 20, 8)] {
        assert_eq!(ask(&j, &kept(&j, need, period)), refused(number, 0));
    }
    assert_eq!(ask(&j, &BENCH_J.stretch(1, 19)), refused(5, 1));
    let alone = table(0, &[running(5, 20, 17, 5)]);
    assert_eq!(ask(&alone, &kept(&alone, 1, 4)), refused(9, 0));
    // With 3 ticks owed by 3 it is in time.
    let lines = table(7, &[running(5, 20, 17, 3), SPARE]);
    let answer = ask(&lines, &kept(&lines, 1, 4)).map(|answer| answer.start);
    assert_eq!(answer, Ok(7));
}

/// R104: a pump that goes on as it is has a period that ends short by then.
#[test]
fn r104_the_pump_goes_on() {
    let mut table = case_j();
    assert_eq!(step(&mut table), Ok(Some(0)));
    assert_eq!(step(&mut table), Ok(Some(0)));
    assert_eq!(step(&mut table), refused(14, 0));
}
