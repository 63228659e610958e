//! Lines that leave (R99) in a drawn table: with the periods that R25 asks for, and with others.

use crate::cases::{self, Line};
use crate::draw;
use crate::random::Random;
use crate::types::{Content, Follows, Request, Table};

/// Each running line leaves half of the time, whatever its T'.
#[cfg(any(test, feature = "house"))]
pub fn any(random: &mut Random, table: &mut Table) {
    for run in table.running_mut() {
        if random.below(2) == 0 {
            run.follows = Follows::Leaves;
        }
    }
}

/// R25: of the lines whose period is kept each leaves half of the time, so that the sums of R28 and R29 stay as they were.
pub fn fitting(random: &mut Random, table: &mut Table, request: &Request) {
    for (content, stretched) in table.slots.iter_mut().zip(request.stretched) {
        if let Content::Running(run) = content {
            if random.below(2) == 0 && stretched == run.period {
                run.follows = Follows::Leaves;
            }
        }
    }
}

/// R25: one of the lines leaves, with another T' than its T: a tick less or more, twice as long, or none.
pub fn misfitting(random: &mut Random, table: &mut Table, request: &mut Request) {
    let lines = table.running().count() as u64;
    let (drawn, kind) = (random.below(lines) as usize, random.below(8));
    let Some(slot) = table.running().nth(drawn).map(|(slot, _)| slot) else {
        return;
    };
    if let Content::Running(run) = &mut table.slots[slot] {
        run.follows = Follows::Leaves;
        request.stretched[slot] = match kind {
            0 | 1 => run.period.saturating_sub(1),
            2..=4 => run.period.saturating_add(1),
            5 | 6 => run.period.saturating_mul(2),
            _ => 0,
        };
    }
}

/// A drawn table of which some lines leave, now and then one of them with another T'.
fn of(random: &mut Random, drawn: fn(&mut Random) -> (Table, Request)) -> (Table, Request) {
    let (mut table, mut request) = drawn(random);
    fitting(random, &mut table, &request);
    if random.below(16) == 0 {
        misfitting(random, &mut table, &mut request);
    }
    (table, request)
}

/// A table near full load with such lines.
pub fn near_full(random: &mut Random) -> (Table, Request) {
    of(random, draw::near_full)
}

/// A need of at most a third of a period.
fn third(random: &mut Random, period: u16) -> u16 {
    1 + random.small(u64::from(period / 3))
}

/// A short line; a long one that owes what the short one, if it renews, and the new line leave up to its first end, or a little
/// more; one that owes nothing and is stretched; and the new line.
fn hurried_lines(random: &mut Random) -> ([Line; 3], (u16, u16)) {
    let short = 3 + random.small(6);
    let long = short * (4 + random.small(13));
    let period = [short, 3, 4, long][random.below(4) as usize];
    let new = (third(random, period), period);
    let (need, age) = (third(random, short), random.small(short.into()));
    let first = (need, short, short, age, need.min(short - age));
    let end = short + random.small(u64::from(long / 2));
    let wanted = first.4 + need * ((end + age - short) / short) + new.0 * (end / period);
    let need = long / 4 + random.small(u64::from(long / 4));
    let owed = (end + random.small(4)).saturating_sub(wanted).min(need);
    let second = (need, long, long, long - end, owed);
    let (times, age) = (2 + random.small(4), random.small(u64::from(long / 2)));
    ([first, second, (long / 4, long, long * times, age, 0)], new)
}

/// These lines in any order and place, of which the short one leaves: what is answered often depends on the periods that it does
/// not have.
pub fn hurried(random: &mut Random) -> (Table, Request) {
    let (mut lines, new) = hurried_lines(random);
    let slot = random.below(3) as usize;
    lines.rotate_right(slot);
    let (mut table, mut request) = cases::row(random.below(100), &lines, new);
    if let Content::Running(run) = &mut table.slots[slot] {
        run.follows = Follows::Leaves;
    }
    let moved = random.below(14) as usize;
    table.slots.rotate_right(moved);
    request.stretched.rotate_right(moved);
    (table, request)
}

/// A table with small numbers, of two thirds of which some lines leave, for tests that look at every tick many times.
#[cfg(test)]
pub fn small(random: &mut Random) -> (Table, Request) {
    match random.below(3) {
        0 => draw::small(random),
        1 => of(random, draw::small),
        _ => hurried(random),
    }
}

/// Near full load with one number changed.
pub fn damaged(random: &mut Random) -> (Table, Request) {
    let (mut table, mut request) = near_full(random);
    draw::damage(random, &mut table, &mut request);
    (table, request)
}

#[cfg(test)]
mod tests {
    use super::*;
    use crate::rules;

    /// How many of so many drawn tables have a line that leaves, are granted a start, and another one than if every line renewed.
    fn drawn(draw: fn(&mut Random) -> (Table, Request), times: usize) -> [usize; 3] {
        let (mut random, mut seen) = (Random::new(62), [0; 3]);
        for _ in 0..times {
            let (table, request) = draw(&mut random);
            let leaves = table.lowest(Content::is_leaving).is_some();
            let asked = rules::ask_before_last_end(&table, &request);
            let renewing = rules::ask_before_last_end(&table.renewing(), &request);
            let (granted, differs) = (leaves && asked.is_ok(), asked.is_ok() && asked != renewing);
            for (count, is_so) in seen.iter_mut().zip([leaves, granted, differs]) {
                *count += usize::from(is_so);
            }
        }
        seen
    }

    #[test]
    fn many_are_granted_and_tell() {
        let [leaving, granted, _] = drawn(near_full, 1_000);
        assert!(leaving > 500 && granted > 400, "{leaving} {granted}");
        let [leaving, granted, telling] = drawn(hurried, 1_000);
        assert_eq!(leaving, 1_000);
        assert!(granted > 500 && telling > 250, "{granted} {telling}");
    }
}
