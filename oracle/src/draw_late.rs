//! Tables whose running lines alone come too late, or are just in time (R30, R103).

use crate::cases::{self, Line};
use crate::draw;
use crate::draw_leaving;
use crate::random::Random;
use crate::types::{Request, Table, SLOTS};

/// Stretched periods, short ones too, so that some lines have several ends. All divide 720, which is the frame.
const PERIODS: [u16; 10] = [5, 6, 8, 12, 20, 24, 36, 40, 60, 72];

/// A quarter of the pump, of which nothing is owed: R29 lets the others be behind by as much as its need.
const SPARE: Line = (180, 720, 720, 0, 0);

/// A line for at most one of so many parts of the pump, or a tick. It is owed all its need or a tick less, and ends when that and what
/// was `wanted` before can be had, or a little sooner or later; half of them are stretched.
fn line(random: &mut Random, parts: u16, wanted: &mut u16) -> Line {
    let stretched = PERIODS[random.below(PERIODS.len() as u64) as usize];
    let need = 1 + random.small(u64::from(stretched / parts));
    let owed = need - random.small(2);
    *wanted += owed;
    let end = (*wanted + random.small(7)).saturating_sub(3);
    let end = end.clamp(1, stretched);
    // R5: the age is below the period.
    let longer = random.small(2) * random.small(end.into());
    let period = (stretched - longer).max(need);
    (need, period, stretched, stretched - end, owed)
}

/// Up to four such lines.
fn in_a_row(random: &mut Random) -> Vec<Line> {
    let (count, mut wanted) = (1 + random.small(4), 0);
    (0..count)
        .map(|_| line(random, 2 * count, &mut wanted))
        .collect()
}

/// A line that wants half of the pump or more, and one that ends a little before the second end of the first. Both are in time up to there
/// by a tick or less, so that the second end is often the first that is short.
fn at_a_second_end(random: &mut Random) -> Vec<Line> {
    let period = [5, 6, 8, 9, 10, 12][random.below(6) as usize];
    let (need, end) = (period * 5 / 8, 1 + random.small(period.into()));
    let owed = need.min(end);
    let other_end = end + period - 1 - random.small(3);
    let other = other_end - owed - random.small(2);
    vec![
        (need, period, period, period - end, owed),
        (other, 720, 720, 720 - other_end, other),
    ]
}

/// Such lines and one that owes nothing, in any order and place, at any clock; of half of the tables some lines leave.
pub fn late(random: &mut Random) -> (Table, Request) {
    let mut lines = match random.below(4) {
        0 => at_a_second_end(random),
        _ => in_a_row(random),
    };
    lines.push(SPARE);
    if random.below(2) == 0 {
        lines.reverse();
    }
    let turned = random.below(lines.len() as u64) as usize;
    lines.rotate_right(turned);
    let new = (1, PERIODS[3 + random.below(7) as usize]);
    let (mut table, mut request) = cases::row(draw::clock(random), &lines, new);
    if random.below(2) == 0 {
        draw_leaving::fitting(random, &mut table, &request);
    }
    let moved = random.below((SLOTS - lines.len()) as u64) as usize;
    table.slots.rotate_right(moved);
    request.stretched.rotate_right(moved);
    (table, request)
}

#[cfg(test)]
mod tests {
    use super::*;
    use crate::rules;

    #[test]
    fn many_are_late_and_many_in_time() {
        let (mut random, mut granted, mut refused) = (Random::new(63), 0, [0; 11]);
        for _ in 0..1_000 {
            let (table, request) = late(&mut random);
            match rules::ask(&table, &request) {
                Ok(_) => granted += 1,
                Err(refusal) => refused[usize::from(refusal.number)] += 1,
            }
        }
        assert!(granted > 200 && refused[10] > 400, "{granted} {refused:?}");
    }
}
