//! A history that differs, made short.

use super::beside::{first_difference, Beside, Doer};
use super::laid;
use super::operation::Operation;
use crate::boundary::{Act, NewLine};
use crate::types::{Content, Follows, Run, Wait};

/// How many histories are tried at most.
const TRIALS: usize = 20_000;

/// The shortest history found that differs; it ends with the call that does.
pub fn shrunk(library: Doer, history: &[Operation]) -> Vec<Operation> {
    let history = &one_by_one(history)[..];
    let Some((last, _)) = first_difference(library, history) else {
        return history.to_vec();
    };
    let mut shrinking = Shrinking {
        library,
        best: history[..=last].to_vec(),
        trials: TRIALS,
    };
    // No call remembers another: what lay on the desk before the last one is enough, if that is so.
    let from_desk = described(library, &history[..last], &history[last]);
    shrinking.attempt(from_desk);
    while shrinking.shorter() || shrinking.earlier() || shrinking.simpler() {}
    shrinking.best
}

/// The same history with single steps.
fn one_by_one(history: &[Operation]) -> Vec<Operation> {
    let single = |operation: &Operation| match operation {
        Operation::Steps(times) => vec![Operation::Steps(1); *times as usize],
        _ => vec![operation.clone()],
    };
    history.iter().flat_map(single).collect()
}

/// The history that lays out the desk before its last operation at once.
fn described(library: Doer, before: &[Operation], last: &Operation) -> Vec<Operation> {
    let mut beside = Beside::new(library);
    for operation in before {
        // Nothing differs before the last one.
        let _ = beside.operate(operation);
    }
    let mut history = laid::desk(&beside.desk);
    history.push(last.clone());
    history
}

struct Shrinking {
    library: Doer,
    best: Vec<Operation>,
    trials: usize,
}

impl Shrinking {
    /// Takes a history over if it differs too.
    fn attempt(&mut self, history: Vec<Operation>) -> bool {
        if self.trials == 0 {
            return false;
        }
        self.trials -= 1;
        let differs = first_difference(self.library, &history).is_some();
        if differs {
            self.best = history;
        }
        differs
    }

    /// Leaves operations out, many at once at first; true if any could be.
    fn shorter(&mut self) -> bool {
        let before = self.best.len();
        let mut size = before.div_ceil(2);
        while size > 0 {
            let mut at = 0;
            while at < self.best.len() {
                let end = self.best.len().min(at + size);
                let less = [&self.best[..at], &self.best[end..]].concat();
                if !self.attempt(less) {
                    at += size;
                }
            }
            size /= 2;
        }
        self.best.len() < before
    }

    /// R96: makes the clock and a count less by as much, so that what is left between them stays; true if any could be.
    fn earlier(&mut self) -> bool {
        let is_clock = |operation: &Operation| matches!(operation, Operation::Clock(_));
        let Some(first) = self.best.iter().position(is_clock) else {
            return false;
        };
        (0..self.best.len()).any(|at| {
            let mut history = self.best.clone();
            match (&self.best[first], &self.best[at]) {
                (Operation::Clock(clock), Operation::Count(place, ticks)) => {
                    let less = (*clock).min(*ticks);
                    history[first] = Operation::Clock(clock - less);
                    history[at] = Operation::Count(*place, ticks - less);
                    less > 0 && self.attempt(history)
                }
                _ => false,
            }
        })
    }

    /// Puts a simpler operation in the place of one; true if any could be.
    fn simpler(&mut self) -> bool {
        let mut any = false;
        for at in 0..self.best.len() {
            while at < self.best.len() && self.simpler_at(at) {
                any = true;
            }
        }
        any
    }

    fn simpler_at(&mut self, at: usize) -> bool {
        simpler(&self.best[at]).into_iter().any(|operation| {
            let mut history = self.best.clone();
            history[at] = operation;
            self.attempt(history)
        })
    }
}

/// Lesser numbers, the least first. Half of it is taken off, a quarter, and so on, down to 1: so that the least of 64 bits that
/// will do is come to in few steps.
fn less(number: u64) -> Vec<u64> {
    let parts = (1..u64::BITS).map(|halvings| number >> halvings);
    let mut lesser = vec![0, 1];
    lesser.extend(parts.filter(|part| *part > 0).map(|part| number - part));
    lesser.retain(|candidate| *candidate < number);
    lesser.dedup();
    lesser
}

/// Arrays of which one number is less.
fn one_less<const N: usize>(numbers: [u16; N]) -> Vec<[u16; N]> {
    let changed = |at: usize| {
        less(numbers[at].into()).into_iter().map(move |number| {
            let mut changed = numbers;
            changed[at] = number as u16;
            changed
        })
    };
    (0..N).flat_map(changed).collect()
}

/// Bytes without some of them, or with a 0 in the place of one.
fn fewer(bytes: &[u8]) -> Vec<Vec<u8>> {
    let without = |at: usize, size: usize| {
        let end = bytes.len().min(at + size);
        [&bytes[..at], &bytes[end..]].concat()
    };
    let sizes = [bytes.len() / 2, 12, 2, 1]
        .into_iter()
        .filter(|size| *size > 0);
    let mut fewer: Vec<Vec<u8>> = sizes
        .flat_map(|size| (0..bytes.len()).step_by(size).map(move |at| (at, size)))
        .map(|(at, size)| without(at, size))
        .collect();
    for at in (0..bytes.len()).filter(|at| bytes[*at] != 0) {
        let mut zeroed = bytes.to_vec();
        zeroed[at] = 0;
        fewer.push(zeroed);
    }
    fewer
}

/// One that leaves may renew, and not the other way: so that this ends.
fn simpler_run(run: &Run) -> Vec<Run> {
    let renewing = Run {
        follows: Follows::Renews,
        ..*run
    };
    let less = one_less([run.need, run.period, run.age, run.remaining]);
    let less = less.into_iter().map(|[need, period, age, remaining]| Run {
        need,
        period,
        age,
        remaining,
        ..*run
    });
    run.leaves()
        .then_some(renewing)
        .into_iter()
        .chain(less)
        .collect()
}

fn simpler_content(content: &Content) -> Vec<Content> {
    match content {
        Content::Nothing => vec![],
        Content::Running(run) => simpler_run(run).into_iter().map(Content::Running).collect(),
        Content::Waiting(line) => one_less([line.need, line.period, line.wait])
            .into_iter()
            .map(|[need, period, wait]| Content::Waiting(Wait { need, period, wait }))
            .collect(),
    }
}

fn simpler_line(line: &NewLine, act: fn(NewLine) -> Act) -> Vec<Operation> {
    one_less([line.need, line.period])
        .into_iter()
        .map(|[need, period]| Operation::Call(act(NewLine { need, period })))
        .collect()
}

/// What may stand in an operation's place; each has lesser numbers, fewer bytes or a line that renews, so that this ends.
fn simpler(operation: &Operation) -> Vec<Operation> {
    let numbers =
        |number: u64, of: fn(u64) -> Operation| less(number).into_iter().map(of).collect();
    match operation {
        Operation::Clock(clock) => numbers(*clock, Operation::Clock),
        Operation::Slot(slot, content) => simpler_content(content)
            .into_iter()
            .map(|content| Operation::Slot(*slot, content))
            .collect(),
        Operation::Count(place, ticks) => less(*ticks)
            .into_iter()
            .map(|ticks| Operation::Count(*place, ticks))
            .collect(),
        Operation::Last(last) => numbers((*last).into(), |n| Operation::Last(n as u8)),
        Operation::Byte(at, byte) => less((*byte).into())
            .into_iter()
            .map(|byte| Operation::Byte(*at, byte as u8))
            .collect(),
        Operation::Cut(length) => numbers(*length as u64, |n| Operation::Cut(n as usize)),
        Operation::More(bytes) => fewer(bytes).into_iter().map(Operation::More).collect(),
        Operation::Stretched(periods) => one_less(*periods)
            .into_iter()
            .map(Operation::Stretched)
            .collect(),
        Operation::Card(bytes) => fewer(bytes).into_iter().map(Operation::Card).collect(),
        Operation::Lend(length, fill) => less(*length as u64)
            .into_iter()
            .map(|length| Operation::Lend(length as usize, *fill))
            .collect(),
        Operation::Table => vec![],
        Operation::Steps(times) => numbers(*times, Operation::Steps),
        Operation::Call(Act::Run(ticks)) => {
            numbers((*ticks).into(), |n| Operation::Call(Act::Run(n as u16)))
        }
        Operation::Call(Act::Lamp(number)) => {
            numbers(*number, |number| Operation::Call(Act::Lamp(number)))
        }
        Operation::Call(Act::Leave(number)) => {
            numbers(*number, |number| Operation::Call(Act::Leave(number)))
        }
        Operation::Call(Act::Ask(line)) => simpler_line(line, Act::Ask),
        Operation::Call(Act::Admit(line)) => simpler_line(line, Act::Admit),
        Operation::Call(Act::WriteCard(line)) => simpler_line(line, Act::WriteCard),
        Operation::Call(_) => vec![],
    }
}
