//! R79, R80, R106: over runs (R73), what is counted against a list of the slots that ran, kept here, what becomes of a line that is
//! asked to leave, and who goes on.

use crate::draw;
use crate::published;
use crate::random::Random;
use crate::rules;
use crate::types::{Content, Follows, Request, Run as Line, Table, EMPTY, SLOTS};

/// All periods divide it, so that they can be stretched.
const BASE: u64 = 10_080;
const RUNS: u64 = 3_000;
const ACTS: u64 = 24;

/// R80: a line that was asked to leave: how many ticks there were then and will be at its end, the ticks that it was owed, and itself.
#[derive(Clone, Copy)]
struct Asked {
    since: usize,
    end: usize,
    line: Line,
}

/// A run: its table, the slots that ran, tick by tick, how many ticks there were when each slot's line was admitted, and of the
/// lines that leave when they were asked; how many ticks the lines had that are gone; and how often a line went on though one in a lower
/// slot ended as soon.
struct Run {
    table: Table,
    ran: Vec<Option<usize>>,
    admitted: [Option<usize>; SLOTS],
    asked: [Option<Asked>; SLOTS],
    departed: u64,
    went_on: u64,
}

impl Run {
    fn new() -> Run {
        Run {
            table: EMPTY,
            ran: Vec::new(),
            admitted: [None; SLOTS],
            asked: [None; SLOTS],
            departed: 0,
            went_on: 0,
        }
    }

    /// R105: by the list, the slot of the line that got the last tick, if that line is there: a new one in its slot was admitted after it.
    fn on(&self) -> Option<usize> {
        let slot = (*self.ran.last()?)?;
        let since = self.admitted[slot]?;
        (since < self.ran.len()).then_some(slot)
    }

    /// R106: the line that got the last tick has the next one, if it is owed one and nobody ends sooner; else R44, the lowest slot of those
    /// that end first.
    fn next(&self) -> Option<usize> {
        let left = |slot: usize| match self.table.slots[slot] {
            Content::Running(line) if line.remaining > 0 => Some(line.period - line.age),
            _ => None,
        };
        let least = (0..SLOTS).filter_map(left).min()?;
        let mut ends_first = (0..SLOTS).filter(|slot| left(*slot) == Some(least));
        let on = self.on().filter(|slot| left(*slot) == Some(least));
        on.or(ends_first.next())
    }

    fn step(&mut self) {
        let (wanted, lowest) = (self.next(), published::step(&self.table));
        // R74: no step of a run is refused.
        let (next, slot) = rules::step(&self.table).expect("a run");
        assert_eq!(slot, wanted);
        self.went_on += u64::from(lowest.is_ok_and(|(_, lowest)| lowest != slot));
        self.ran.push(slot);
        self.table = next;
        for slot in 0..SLOTS {
            if let Some(asked) = self.asked[slot] {
                self.stays_or_is_gone(slot, &asked);
            }
        }
    }

    /// R80: it stays up to its end with its need and its period, is served as often as it was owed, and is gone then.
    fn stays_or_is_gone(&mut self, slot: usize, asked: &Asked) {
        let served = self.named(asked.since, Some(slot));
        if self.ran.len() == asked.end {
            assert_eq!(served, u64::from(asked.line.remaining));
            self.goes(slot);
            return;
        }
        let wanted = Line {
            age: asked.line.age + (self.ran.len() - asked.since) as u16,
            remaining: asked.line.remaining - served as u16,
            follows: Follows::Leaves,
            ..asked.line
        };
        assert_eq!(self.table.slots[slot], Content::Running(wanted));
    }

    /// R101: a line is gone, and what it had is had by lines that are gone.
    fn goes(&mut self, slot: usize) {
        assert_eq!(self.table.slots[slot], Content::Nothing);
        let admitted = self.admitted[slot].take().expect("a line");
        self.departed += self.named(admitted, Some(slot));
        self.asked[slot] = None;
    }

    /// True if it is granted.
    fn admit(&mut self, request: &Request) -> bool {
        let Ok((_, next)) = rules::admit(&self.table, request) else {
            return false;
        };
        let new = (0..SLOTS).find(|slot| self.admitted[*slot].is_none());
        self.admitted[new.expect("R22")] = Some(self.ran.len());
        self.table = next;
        true
    }

    /// True if it is granted; R36: so it is where a line is that was not asked yet.
    fn leave(&mut self, slot: usize) -> bool {
        let there = self.admitted[slot].is_some() && self.asked[slot].is_none();
        let (held, left) = (
            self.table.slots[slot],
            rules::leave(&self.table, slot as u64),
        );
        assert_eq!(left.is_ok(), there);
        let Ok((ticks, next)) = left else {
            return false;
        };
        self.table = next;
        match held {
            Content::Running(line) => {
                let since = self.ran.len();
                let end = since + ticks as usize;
                self.asked[slot] = Some(Asked { since, end, line });
            }
            _ => self.goes(slot),
        }
        true
    }

    /// How often the list names a slot, or none, from a tick on.
    fn named(&self, since: usize, name: Option<usize>) -> u64 {
        let named = self.ran[since..].iter().filter(|ran| **ran == name);
        named.count() as u64
    }

    fn is_accounted_for(&self) {
        let counts = self.table.counts;
        for (slot, admitted) in self.admitted.iter().enumerate() {
            let wanted = admitted.map_or(0, |since| self.named(since, Some(slot)));
            assert_eq!(counts.had[slot], wanted, "slot {slot}");
        }
        assert_eq!(counts.idle, self.named(0, None));
        assert_eq!(counts.departed, self.departed);
        let all = counts.had.iter().sum::<u64>() + counts.idle + counts.departed;
        assert_eq!((all, self.ran.len() as u64), (self.table.clock, all));
        // R105: whatever was asked, admitted, let go or refused since.
        assert_eq!(self.table.last, self.on().map_or(255, |slot| slot as u8));
    }
}

/// Half of the pump, and no line stretched.
fn half(random: &mut Random, table: &Table) -> Request {
    let mut request = draw::stretched(random, BASE, 1, table);
    request.need = draw::divisor(BASE / 2, 1 + random.below(24));
    request.period = 2 * request.need;
    request
}

/// Some lines stretched, and a new line for all or nearly all that this leaves.
fn freed(random: &mut Random, table: &Table) -> Request {
    let times = 2 + random.below(3);
    if random.below(2) == 0 {
        return draw::rest(random, BASE, times, table);
    }
    let mut request = draw::stretched(random, BASE, times, table);
    let left = draw::room(BASE, table, &request);
    draw::newcomer(random, BASE, left, &mut request);
    request
}

/// Two lines fill the pump; then of some requests the first that has to wait, if one does.
fn request(random: &mut Random, table: &Table) -> Request {
    if table.lowest_empty().is_some_and(|slot| slot < 2) {
        return half(random, table);
    }
    let waits = |request: &Request| {
        rules::ask_before_last_end(table, request).is_ok_and(|start| start > table.clock)
    };
    let mut drawn = (0..12).map(|_| freed(random, table));
    drawn.find(waits).unwrap_or_else(|| freed(random, table))
}

/// What is done in a run, and met.
#[derive(Clone, Copy)]
enum Done {
    Granted,
    Refused,
    LetGo,
    Removed,
    Stepped,
}

/// R73: an act of any kind; while a line waits it is often removed, and while the pump is not full new lines are admitted.
fn act(random: &mut Random, run: &mut Run) -> Done {
    let waiting = run.table.lowest(Content::is_waiting);
    let slot = waiting.unwrap_or(random.below(6) as usize);
    let full = run.table.lowest_empty() >= Some(2);
    match random.below(if full { 8 } else { 3 }) {
        0 | 1 if run.admit(&request(random, &run.table)) => Done::Granted,
        0 | 1 => Done::Refused,
        2 | 3 if waiting.is_some() && run.leave(slot) => Done::Removed,
        2 if random.below(4) == 0 && run.leave(slot) => Done::LetGo,
        _ => {
            (0..1 + random.below(12)).for_each(|_| run.step());
            Done::Stepped
        }
    }
}

#[test]
fn every_tick_is_accounted_for_and_who_ran_goes_on() {
    let mut random = Random::new(71);
    let (mut done, mut waiting, mut idle, mut departed, mut went_on) = ([0; 5], 0, 0, 0, 0);
    for _ in 0..RUNS {
        let mut run = Run::new();
        for _ in 0..ACTS {
            done[act(&mut random, &mut run) as usize] += 1;
            run.is_accounted_for();
            waiting += u64::from(run.table.lowest(Content::is_waiting).is_some());
        }
        idle += run.table.counts.idle;
        departed += run.table.counts.departed;
        went_on += run.went_on;
    }
    let seen = [&done[..], &[waiting, idle, departed, went_on]].concat();
    assert!(seen.iter().all(|times| *times > 100), "{seen:?}");
}
