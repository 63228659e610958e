//! Lines that are let go (R100), their last period (R46, R99) and what is counted of them (R101). The answers are worked out by hand
//! from docs/RULES.md.

use crate::by_hand::{leaves, refused, runs, stepped, table, waits};
use crate::cases::LAST_CLOCK;
use crate::edges;
use crate::rules::{admit, ask, leave, ready, step};
use crate::types::{Content, Request, Table, COUNTS, EMPTY, SLOTS, ZEROS};

/// R81: the places of the idle count and of the departed one.
const IDLE: usize = 16;
const DEPARTED: usize = 17;

/// R7: 2^48 in digits of its own, as `LAST_CLOCK`.
const LAST: u64 = 281_474_976_710_656;

/// R100: from then on it leaves, and nothing else of it or beside it changes.
#[test]
fn a_running_line_is_let_go() {
    let other = (7, runs([1, 4, 0, 1]));
    let counts = [(3, 40), (7, 1), (9, 7), (IDLE, 12), (DEPARTED, 5)];
    for age in 0..16 {
        let numbers = [8, 16, age, 5];
        let before = table(99, &[(3, runs(numbers)), other], &counts);
        let after = table(99, &[(3, leaves(numbers)), other], &counts);
        assert_eq!(leave(&before, 3), Ok((16 - u64::from(age), after)));
    }
    let long = table(0, &[(15, runs([1, 65_535, 0, 1]))], &[]);
    assert_eq!(leave(&long, 15).map(|(ticks, _)| ticks), Ok(65_535));
}

/// R100, R101: what stands beside a waiting line is had by lines that are gone; in a run (R73) that is nothing.
#[test]
fn a_waiting_line_is_removed() {
    let other = (7, leaves([1, 4, 0, 1]));
    let waiting = [(3, waits([2, 9, 4])), other];
    for (had, departed) in [(0, 0), (0, 5), (40, 0), (40, 5)] {
        let before = [(3, had), (7, 1), (9, 7), (IDLE, 12), (DEPARTED, departed)];
        let after = [(7, 1), (9, 7), (IDLE, 12), (DEPARTED, departed + had)];
        let gone = table(99, &[other], &after);
        assert_eq!(leave(&table(99, &waiting, &before), 3), Ok((0, gone)));
    }
    // R96: a count that is the clock, the last of 64 bits.
    let most = table(u64::MAX, &waiting, &[(3, u64::MAX)]);
    let gone = table(u64::MAX, &[other], &[(DEPARTED, u64::MAX)]);
    assert_eq!(leave(&most, 3), Ok((0, gone)));
}

/// A line that can be let go in slot 3, one that leaves in slot 4, one that waits in slot 6, and else nothing.
fn three_lines(clock: u64, counts: &[(usize, u64)]) -> Table {
    let running = [(3, runs([8, 16, 8, 5])), (4, leaves([1, 4, 3, 0]))];
    let mut table = table(clock, &running, counts);
    table.slots[6] = waits([2, 9, 4]);
    table
}

/// R36: no slot's number, an empty slot and a line that leaves already; the place is the number as it was named.
#[test]
fn refusal_16_at_each_of_its_grounds() {
    let table = three_lines(9, &[]);
    assert_eq!(leave(&table, 3).map(|(ticks, _)| ticks), Ok(8));
    assert_eq!(leave(&table, 6).map(|(ticks, _)| ticks), Ok(0));
    for number in (0..SLOTS as u64).filter(|number| ![3, 6].contains(number)) {
        assert_eq!(leave(&table, number), refused(16, number));
    }
    for number in [16, 17, 19, 255, 256, 65_536, u64::MAX - 1, u64::MAX] {
        assert_eq!(leave(&table, number), refused(16, number));
    }
    // Numbers of which the lower bits name a line that could be let go.
    for bit in 4..64 {
        for slot in [3, 6] {
            let number = slot | 1 << bit;
            assert_eq!(leave(&table, number), refused(16, number));
        }
    }
}

/// R36: once asked, a running line cannot be asked again, and a waiting one is not there any more.
#[test]
fn nobody_is_let_go_twice() {
    for number in [3, 6] {
        let (_, once) = leave(&three_lines(9, &[]), number).expect("a line");
        assert_eq!(leave(&once, number), refused(16, number));
    }
}

/// R24, R100: both parts of 4 come before 16, and before what would be granted.
#[test]
fn refusal_4_before_16() {
    let numbers = [3, 4, 5, 6, 11, 16, u64::MAX];
    let mut unsound = three_lines(9, &[]);
    unsound.slots[11] = leaves([1, 4, 4, 0]);
    let over = three_lines(9, &[(IDLE, 5), (DEPARTED, 5)]);
    let mut both = over;
    both.slots[14] = waits([1, 4, 0]);
    for number in numbers {
        assert_eq!(leave(&unsound, number), refused(4, 11));
        assert_eq!(leave(&over, number), refused(4, 0));
        assert_eq!(leave(&both, number), refused(4, 14));
    }
    let equal = three_lines(9, &[(IDLE, 5), (DEPARTED, 4)]);
    assert_eq!(leave(&equal, 3).map(|(ticks, _)| ticks), Ok(8));
}

/// R100: neither 1 nor 15 is looked at.
#[test]
fn at_any_clock() {
    for clock in [0, LAST_CLOCK, LAST_CLOCK + 1, LAST, LAST + 1, u64::MAX] {
        let table = three_lines(clock, &[(IDLE, clock)]);
        assert_eq!(leave(&table, 3).map(|(ticks, _)| ticks), Ok(8));
        assert_eq!(leave(&table, 6).map(|(ticks, _)| ticks), Ok(0));
        assert_eq!(leave(&table, 16), refused(16, 16));
    }
}

/// R46, R100, R101: asked at age 0 it has that whole period, all its need in it, and then its slot holds nothing.
#[test]
fn a_whole_last_period() {
    let begun = table(20, &[(5, runs([2, 4, 0, 2]))], &[(5, 6), (IDLE, 6)]);
    let (ticks, asked) = leave(&begun, 5).expect("a line");
    assert_eq!(ticks, 4);
    let (ran, last) = stepped(asked, 3);
    assert_eq!(ran, [Some(5), Some(5), None]);
    let wanted = table(23, &[(5, leaves([2, 4, 3, 0]))], &[(5, 8), (IDLE, 7)]);
    assert_eq!(last, wanted);
    let gone = table(24, &[], &[(IDLE, 8), (DEPARTED, 8)]);
    assert_eq!(stepped(last, 1), (vec![None], gone));
}

/// R97, R101: a tick that a line gets is counted before it is gone, and no other count changes with it.
#[test]
fn gone_with_its_last_tick() {
    let counts = |ends: &[(usize, u64)]| [&[(0, 9), (9, 7), (IDLE, 3)], ends].concat();
    let other = |age| (0, runs([1, 8, age, 1]));
    let last = [other(2), (5, leaves([2, 4, 3, 1]))];
    let before = table(99, &last, &counts(&[(5, 30), (DEPARTED, 4)]));
    let after = table(100, &[other(3)], &counts(&[(DEPARTED, 35)]));
    assert_eq!(step(&before), Ok((after, Some(5))));
    // It has had its need, and another line gets the tick.
    let last = [other(2), (5, leaves([2, 4, 3, 0]))];
    let before = table(99, &last, &counts(&[(5, 30), (DEPARTED, 4)]));
    let (after, ran) = step(&before).expect("in order");
    assert_eq!((ran, after.slots[5]), (Some(0), Content::Nothing));
    let all = table(0, &[], &counts(&[(0, 10), (DEPARTED, 34)])).counts;
    assert_eq!(after.counts, all);
}

#[test]
fn several_gone_at_once() {
    let ends = [
        (2, leaves([2, 4, 3, 0])),
        (4, runs([2, 4, 3, 0])),
        (5, leaves([1, 8, 7, 1])),
        (15, leaves([1, 2, 1, 0])),
    ];
    let before = table(
        99,
        &ends,
        &[(2, 10), (4, 20), (5, 30), (9, 7), (DEPARTED, 1)],
    );
    let renewed = [(4, runs([2, 4, 0, 2]))];
    let after = table(100, &renewed, &[(4, 20), (9, 7), (DEPARTED, 42)]);
    assert_eq!(step(&before), Ok((after, Some(5))));
}

/// R34: a line that leaves may end short too, and then nobody is gone.
#[test]
fn a_last_period_that_ends_short() {
    let (one, two) = ([1, 4, 3, 1], [2, 4, 3, 2]);
    let short = |lines: &[(usize, Content)]| step(&table(9, lines, &[]));
    assert_eq!(short(&[(2, leaves(one)), (5, leaves(one))]), refused(14, 5));
    assert_eq!(short(&[(2, runs(one)), (5, leaves(one))]), refused(14, 5));
    assert_eq!(short(&[(2, leaves(one)), (5, runs(one))]), refused(14, 5));
    assert_eq!(short(&[(2, leaves(two)), (5, leaves(one))]), refused(14, 2));
}

/// R44, R49: among equals the lowest slot, and a bit of the ready word, whether it leaves or not.
#[test]
fn chosen_and_ready_as_any_other() {
    let equal = [1, 8, 2, 1];
    for (low, high) in [(leaves(equal), runs(equal)), (runs(equal), leaves(equal))] {
        let table = table(9, &[(3, low), (7, high), (9, leaves([1, 9, 3, 0]))], &[]);
        assert_eq!(step(&table).map(|(_, ran)| ran), Ok(Some(3)));
        assert_eq!(ready(&table), 1 << 3 | 1 << 7);
    }
}

/// R43, R46: at the clock at which a line is gone its slot can be had, and what it had is not the new line's.
#[test]
fn its_slot_is_free_at_its_end() {
    let mut full = table(50, &[], &[(6, 20), (DEPARTED, 1)]);
    full.slots = [runs([1, 16, 0, 0]); SLOTS];
    full.slots[6] = leaves([1, 16, 15, 0]);
    let request = Request {
        stretched: [16; SLOTS],
        need: 1,
        period: 16,
    };
    assert_eq!(ask(&full, &request), refused(2, 0));
    let (free, _) = step(&full).expect("in order");
    let (start, next) = admit(&free, &request).expect("a slot");
    assert_eq!((start, next.slots[6]), (51, runs([1, 16, 0, 1])));
    let counts = table(0, &[], &[(IDLE, 1), (DEPARTED, 21)]).counts;
    assert_eq!((free.counts, next.counts), (counts, counts));
}

/// R42: an admission keeps what follows, and R43: a new line renews, at once or when its wait is over (R47).
#[test]
fn an_admission_keeps_what_follows() {
    for case in edges::stated() {
        let Ok((_, next)) = admit(&case.table, &case.request) else {
            continue;
        };
        let new = case.table.lowest_empty().expect("R22");
        for slot in 0..SLOTS {
            let followed = case.table.slots[slot].is_leaving();
            assert_eq!(next.slots[slot].is_leaving(), followed, "{}", case.name);
        }
        let waits = match next.slots[new] {
            Content::Waiting(line) => line.wait.into(),
            _ => 0,
        };
        let (_, begun) = stepped(next, waits);
        let (need, period) = (case.request.need, case.request.period);
        assert_eq!(
            begun.slots[new],
            runs([need, period, 0, need]),
            "{}",
            case.name
        );
    }
}

/// R95, R96: a departed count is a count, also where nobody has been there, and R4: it is 0 on the empty table.
#[test]
fn the_departed_count() {
    assert_eq!(EMPTY.counts.all(), [0; COUNTS]);
    let equal = table(9, &[], &[(DEPARTED, 9)]);
    assert_eq!(
        step(&equal).map(|(next, _)| next.counts.all()[16..].to_vec()),
        Ok(vec![1, 9])
    );
    let over = table(9, &[], &[(DEPARTED, 10)]);
    assert_eq!(step(&over), refused(4, 0));
    assert_eq!(ask(&over, &ZEROS), refused(4, 0));
    assert_eq!(leave(&over, 0), refused(4, 0));
}
