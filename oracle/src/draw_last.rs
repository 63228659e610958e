//! Last slots of every kind for a drawn table (R105), and tables whose lines end together, so that they decide (R44).

use crate::draw;
use crate::random::Random;
use crate::types::{
    Content, Follows, Request, Run, Table, Wait, EMPTY, LAST_TICK, NO_LAST, SLOTS, ZEROS,
};

/// How much longer than its own the stretched period of a line is.
const STRETCHED: u16 = 4;

/// The slot of a line that runs or waits, an empty one, most often the one that a new line would have; a number of which only the
/// lowest bits name a line; any number; or none.
pub fn any(random: &mut Random, table: &mut Table) {
    let running = |content: &Content| matches!(content, Content::Running(_));
    let line = draw::slot(random, table, running) as u8;
    let waiting = draw::slot(random, table, Content::is_waiting) as u8;
    let empty = table.lowest_empty().map_or(line, |slot| slot as u8);
    table.last = match random.below(16) {
        0..=6 => line,
        7 | 8 => waiting,
        9 | 10 => empty,
        11 | 12 => line | 16 << random.below(4),
        13 => random.below(256) as u8,
        _ => NO_LAST,
    };
}

/// A sound line that ends in so many ticks, or now and then a tick sooner or later, often at the beginning of a period. It is owed a tick
/// or two, or none; one in four leaves.
fn ending(random: &mut Random, ticks: u16) -> Run {
    let left = match random.below(8) {
        0 => ticks + 1,
        1 => ticks.saturating_sub(1).max(1),
        _ => ticks,
    };
    let age = random.small(4);
    let period = left + age;
    let need = period.min(1 + random.small(2));
    Run {
        need,
        period,
        age,
        remaining: need.min(random.small(4)),
        follows: match random.below(4) {
            0 => Follows::Leaves,
            _ => Follows::Renews,
        },
    }
}

/// R25: the periods of a line that leaves are kept, those of half of the others not; the new line is small.
fn request(random: &mut Random, table: &Table) -> Request {
    let mut request = Request {
        need: 1,
        period: 8 + random.small(9),
        ..ZEROS
    };
    for (slot, run) in table.running() {
        let times = match random.below(2) {
            0 if !run.leaves() => STRETCHED,
            _ => 1,
        };
        request.stretched[slot] = times * run.period;
    }
    request
}

/// Two to five such lines in any slots, and now and then one that waits for a few ticks; often a clock near the last tick. The last slot
/// is of any kind.
pub fn tied(random: &mut Random) -> (Table, Request) {
    let mut table = EMPTY;
    table.clock = match random.below(8) {
        0 => LAST_TICK - random.below(4),
        _ => random.below(100),
    };
    let ticks = 1 + random.small(6);
    let any_slot = |random: &mut Random| random.below(SLOTS as u64) as usize;
    for _ in 0..2 + random.below(4) {
        let line = ending(random, ticks);
        table.slots[any_slot(random)] = Content::Running(line);
    }
    if random.below(4) == 0 {
        let (need, period, wait) = (1, 1 + random.small(8), 1 + random.small(3));
        table.slots[any_slot(random)] = Content::Waiting(Wait { need, period, wait });
    }
    any(random, &mut table);
    let request = request(random, &table);
    (table, request)
}

#[cfg(test)]
mod tests {
    use super::*;
    use crate::published;
    use crate::rules;

    #[test]
    fn last_slots_of_every_kind() {
        let (mut random, mut seen) = (Random::new(64), [0; 6]);
        for _ in 0..1_000 {
            let (table, _) = tied(&mut random);
            let content = table.last_slot().map(|slot| table.slots[slot]);
            let kind = match content {
                Some(Content::Running(run)) if run.remaining > 0 => 0,
                Some(Content::Running(_)) => 1,
                Some(Content::Waiting(_)) => 2,
                Some(Content::Nothing) => 3,
                None if table.last != NO_LAST => 4,
                None => 5,
            };
            seen[kind] += 1;
        }
        assert!(seen.iter().all(|times| *times > 15), "{seen:?}");
    }

    /// R44: of many tables the last slot decides who gets the tick, and many new lines fit.
    #[test]
    fn the_last_slot_decides_often() {
        let (mut random, mut decided, mut granted) = (Random::new(65), 0, 0);
        for _ in 0..1_000 {
            let (table, request) = tied(&mut random);
            let ran = |step: fn(&Table) -> _| match step(&table) {
                Ok((_, slot)) => slot,
                Err(_) => None,
            };
            decided += u64::from(ran(rules::step) != ran(published::step));
            granted += u64::from(rules::ask(&table, &request).is_ok());
        }
        assert!(decided > 50 && granted > 100, "{decided} {granted}");
    }
}
