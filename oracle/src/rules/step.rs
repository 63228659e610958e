//! What the pump does from tick to tick: who gets a tick (R44, R105), the step (R45 to R48), leaving (R100), what is counted (R97,
//! R101); the ready word and the lamp (R49, R50).

use super::{begin, fault};
#[cfg(any(test, feature = "house"))]
use crate::types::Follows;
use crate::types::{Content, Counts, Refusal, Run, Table, Wait, LAST_TICK, NO_LAST, SLOTS};

/// R48: the clock is tested first, then the lines and the counts, then the ends of periods. The next table
/// and the slot that ran, or none.
pub fn step(table: &Table) -> Result<(Table, Option<usize>), Refusal> {
    if table.clock >= LAST_TICK {
        return Err(Refusal::at(15, 0));
    }
    if let Some(place) = fault(table) {
        return Err(Refusal::at(4, place));
    }
    let ran = chosen(table);
    Ok((ticked(table, ran)?, ran))
}

/// R45 to R47: a tick goes by that this slot gets, whose line is owed one, or none. R34 is looked at here, R35 and R24 are not.
pub fn ticked(table: &Table, ran: Option<usize>) -> Result<Table, Refusal> {
    let mut next = *table;
    if let Some(Content::Running(run)) = ran.map(|slot| &mut next.slots[slot]) {
        run.remaining -= 1;
    }
    for (slot, content) in next.slots.iter_mut().enumerate() {
        *content = older(*content).ok_or(Refusal::at(14, slot))?;
    }
    next.clock += 1;
    // R101, R105: the tick is counted, and the slot kept, before the line that got it is gone.
    count(&mut next.counts, ran);
    next.last = ran.map_or(NO_LAST, |slot| slot as u8);
    for slot in 0..SLOTS {
        if table.slots[slot].is_leaving() && next.slots[slot] == Content::Nothing {
            depart(&mut next, slot);
        }
    }
    Ok(next)
}

/// R97: a tick of the slot that ran, or of none. R96 has let through no more counts than the clock, which is below R7's last tick: no
/// count is near its end.
fn count(counts: &mut Counts, ran: Option<usize>) {
    match ran {
        Some(slot) => counts.had[slot] += 1,
        None => counts.idle += 1,
    }
}

/// R101: what the line of a slot has had is had by lines that are gone. R96 has let through no more counts than the clock, and so
/// two of them together are a number of 64 bits too. R105: who comes after it in its slot has not got the last tick.
fn depart(table: &mut Table, slot: usize) {
    table.counts.departed += table.counts.had[slot];
    table.counts.had[slot] = 0;
    if table.last_slot() == Some(slot) {
        table.last = NO_LAST;
    }
}

/// R100: the lines and the counts are tested first, then the number. In how many ticks the slot holds nothing, and the next table.
#[cfg(any(test, feature = "house"))]
pub fn leave(table: &Table, number: u64) -> Result<(u64, Table), Refusal> {
    if let Some(place) = fault(table) {
        return Err(Refusal::at(4, place));
    }
    let none = Refusal::named(16, number);
    let slot = (0..SLOTS).find(|slot| *slot as u64 == number).ok_or(none)?;
    let mut next = *table;
    match &mut next.slots[slot] {
        Content::Running(run) if run.follows == Follows::Renews => {
            run.follows = Follows::Leaves;
            Ok((u64::from(run.period - run.age), next))
        }
        content if content.is_waiting() => {
            *content = Content::Nothing;
            depart(&mut next, slot);
            Ok((0, next))
        }
        _ => Err(none),
    }
}

/// R44: of the lines that are owed ticks the one whose period ends first; among equals that of the last slot, else of the lowest.
fn chosen(table: &Table) -> Option<usize> {
    // R105: a number that names no slot is no slot's.
    let other = |slot: usize| slot != usize::from(table.last);
    // false is less than true, min_by_key gives the first of equal values, and slots come from 0 up.
    let ends = |(slot, run): &(usize, &Run)| (run.period - run.age, other(*slot));
    let first = table.owed().min_by_key(ends);
    first.map(|(slot, _)| slot)
}

/// R44: the slots of the lines among which that is chosen, the lowest first, for a table whose lines are sound.
#[cfg(any(test, feature = "house"))]
pub fn first_to_end(table: &Table) -> Vec<usize> {
    let left = |run: &Run| run.period - run.age;
    let least = table.owed().map(|(_, run)| left(run)).min();
    let first = table.owed().filter(|(_, run)| Some(left(run)) == least);
    first.map(|(slot, _)| slot).collect()
}

/// R45 to R47: a tick goes by for a slot, its line being served before where it got the tick. None
/// where a period ends with ticks still owed, R34. Only sound lines come here.
fn older(content: Content) -> Option<Content> {
    match content {
        Content::Nothing => Some(Content::Nothing),
        Content::Running(run) if run.age + 1 < run.period => Some(Content::Running(Run {
            age: run.age + 1,
            ..run
        })),
        Content::Running(run) if run.remaining > 0 => None,
        Content::Running(run) if run.leaves() => Some(Content::Nothing),
        Content::Running(run) => Some(begin(run.need, run.period)),
        Content::Waiting(line) if line.wait > 1 => Some(Content::Waiting(Wait {
            wait: line.wait - 1,
            ..line
        })),
        Content::Waiting(line) => Some(begin(line.need, line.period)),
    }
}

/// R50: how often the front lamp blinks.
#[cfg(any(test, feature = "house"))]
pub fn lamp(number: u64) -> u64 {
    match number {
        1..=3 => 1,
        4..=6 => 2,
        7..=10 => 3,
        11..=13 => 4,
        14 | 15 => 5,
        _ => 0,
    }
}

/// R49: a bit for each slot whose line is owed ticks.
#[cfg(any(test, feature = "house"))]
pub fn ready(table: &Table) -> u16 {
    table.owed().fold(0, |word, (slot, _)| word | 1 << slot)
}

#[cfg(test)]
mod tests {
    use super::*;
    use crate::types::EMPTY;

    fn one(content: Content, clock: u64) -> Table {
        let mut table = EMPTY;
        table.clock = clock;
        table.slots[5] = content;
        table
    }

    #[test]
    fn step_refusals_in_order() {
        let line = |age, remaining| {
            Content::Running(Run {
                need: 2,
                period: 4,
                age,
                remaining,
                follows: Follows::Renews,
            })
        };
        let last = LAST_TICK;
        assert_eq!(step(&one(line(4, 2), last)), Err(Refusal::at(15, 0)));
        assert_eq!(step(&one(line(4, 2), last - 1)), Err(Refusal::at(4, 5)));
        assert_eq!(step(&one(line(3, 2), 0)), Err(Refusal::at(14, 5)));
        let (next, ran) = step(&one(line(3, 1), last - 1)).expect("ends in time");
        assert_eq!(
            (next.clock, next.slots[5], ran),
            (last, line(0, 2), Some(5))
        );
        let (next, ran) = step(&one(line(1, 0), 0)).expect("nothing owed");
        assert_eq!((next.slots[5], ran), (line(2, 0), None));
    }

    #[test]
    fn step_of_waiting_lines() {
        let wait = |wait| {
            Content::Waiting(Wait {
                need: 2,
                period: 4,
                wait,
            })
        };
        assert_eq!(step(&one(wait(0), 0)), Err(Refusal::at(4, 5)));
        let (next, ran) = step(&one(wait(2), 0)).expect("waits");
        assert_eq!((next.slots[5], ran), (wait(1), None));
        let (next, _) = step(&next).expect("starts");
        assert_eq!(next.slots[5], begin(2, 4));
    }

    #[test]
    fn equal_ends_go_to_the_lowest_slot() {
        let mut table = EMPTY;
        for slot in [3, 7, 9] {
            table.slots[slot] = begin(1, 8);
        }
        let (next, ran) = step(&table).expect("sound");
        assert_eq!((ran, ready(&table), ready(&next)), (Some(3), 0x288, 0x280));
    }

    #[test]
    fn lamp_ranges() {
        let blinks: Vec<u64> = (0..18).map(lamp).collect();
        assert_eq!(
            blinks,
            [0, 1, 1, 1, 2, 2, 2, 3, 3, 3, 3, 4, 4, 4, 5, 5, 0, 0]
        );
        assert_eq!(lamp(u64::MAX), 0);
    }
}
