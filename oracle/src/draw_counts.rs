//! Counts for a drawn table (R95): such as a run could have left, and too many of them (R96), in each way on its own.

use crate::random::Random;
use crate::types::{Content, Table, COUNTS, IDLE, NO_COUNTS, SLOTS};

/// Counts that add up to 2^64, which is 0 to a sum that wraps.
const WRAPPING: [&[u64]; 3] = [&[1 << 63; 2], &[1 << 60; SLOTS], &[u64::MAX, 1]];

fn any_place(random: &mut Random) -> usize {
    random.below(COUNTS as u64) as usize
}

/// So many ticks shared out among the slots that hold a line and, half of the time, the lines that are gone; and the rest of them
/// idle, or now and then beside the lowest slot that holds nothing.
fn share(random: &mut Random, table: &mut Table, ticks: u64) {
    table.counts = NO_COUNTS;
    let mut left = ticks;
    let mut part = |random: &mut Random| {
        let part = random.wide(left.saturating_add(1));
        left -= part;
        part
    };
    if random.below(2) == 0 {
        table.counts.departed = part(random);
    }
    for slot in (0..SLOTS).filter(|slot| table.slots[*slot] != Content::Nothing) {
        table.counts.had[slot] = part(random);
    }
    let rest = table.lowest_empty().filter(|_| random.below(4) == 0);
    *table.counts.at_mut(rest.unwrap_or(IDLE)) = left;
}

/// Some of the ticks that have gone by, as after a card was read (R56) and the pump has run.
fn some(random: &mut Random, table: &mut Table) {
    let ticks = random.wide(table.clock.saturating_add(1));
    share(random, table, ticks);
}

/// Counts that are in order: all ticks of the clock, some, or none.
pub fn fitting(random: &mut Random, table: &mut Table) {
    match random.below(4) {
        0 | 1 => share(random, table, table.clock),
        2 => some(random, table),
        _ => table.counts = NO_COUNTS,
    }
}

/// A tick more than the clock's.
fn one_above(random: &mut Random, table: &mut Table) {
    share(random, table, table.clock);
    let count = table.counts.at_mut(any_place(random));
    *count = count.saturating_add(1);
}

/// Counts whose sum is 2^64 less if it wraps, and then no more than the clock.
fn wrapping(random: &mut Random, table: &mut Table) {
    some(random, table);
    let first = any_place(random);
    let drawn = WRAPPING[random.below(3) as usize];
    for (place, ticks) in (first..).zip(drawn) {
        let count = table.counts.at_mut(place % COUNTS);
        *count = count.saturating_add(*ticks);
    }
}

/// Too many only with what stands beside a slot that holds nothing.
fn beside_nothing(random: &mut Random, table: &mut Table) {
    some(random, table);
    let left = u128::from(table.clock).saturating_sub(table.counts.sum()) as u64;
    let empty = (0..SLOTS).rfind(|slot| table.slots[*slot] == Content::Nothing);
    if let Some(slot) = empty {
        let (count, more) = (&mut table.counts.had[slot], 1 + random.below(3));
        *count = count.saturating_add(left).saturating_add(more);
    }
}

/// The idle count or the departed one alone above the clock, by one or by far.
fn one_alone(random: &mut Random, table: &mut Table) {
    table.counts = NO_COUNTS;
    let place = IDLE + random.below(2) as usize;
    *table.counts.at_mut(place) = match random.below(3) {
        0 => u64::MAX,
        _ => table.clock.saturating_add(1 + random.below(3)),
    };
}

/// Any numbers, often at an edge.
pub fn any(random: &mut Random, table: &mut Table) {
    for place in 0..COUNTS {
        *table.counts.at_mut(place) = match random.below(8) {
            0 => u64::MAX,
            1 => 1 << random.below(64),
            2 => random.wide(1 << 62),
            _ => random.below(3),
        };
    }
}

/// Counts that add up to more than the clock, but for clocks at the end of 64 bits, where some kinds cannot.
pub fn too_many(random: &mut Random, table: &mut Table) {
    match random.below(6) {
        0 | 1 => one_above(random, table),
        2 => wrapping(random, table),
        3 => beside_nothing(random, table),
        4 => one_alone(random, table),
        _ => any(random, table),
    }
}

#[cfg(test)]
mod tests {
    use super::*;
    use crate::draw;

    #[test]
    fn each_kind_is_what_it_says() {
        let mut random = Random::new(61);
        let random = &mut random;
        for _ in 0..5_000 {
            let (mut table, _) = draw::near_full(random);
            let clock = u128::from(table.clock);
            fitting(random, &mut table);
            assert!(table.counts.sum() <= clock);
            one_above(random, &mut table);
            assert_eq!(table.counts.sum(), clock + 1);
            wrapping(random, &mut table);
            let sum = table.counts.sum();
            assert!(sum > clock && sum % (1 << 64) <= clock, "{sum}");
            one_alone(random, &mut table);
            assert!(table.counts.had == [0; SLOTS] && table.is_overcounted());
            beside_nothing(random, &mut table);
            assert!(table.is_overcounted());
            assert!(!table.counted_where_used().is_overcounted());
        }
    }
}
