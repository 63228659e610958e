//! How often each operation came, with which answers.

use super::met;
use super::operation::Operation;
use crate::boundary::{Act, Desk, Told};
use crate::image;
use crate::rules;
use crate::types::Table;
use std::collections::BTreeMap;
use std::fmt;

/// The greatest number of a refusal.
const REFUSALS: usize = 16;

/// R32: the number that is given by nothing.
const NOT_GIVEN: usize = 12;

/// How often a call was granted, at 0, and refused by each number.
type Answers = [u64; REFUSALS + 1];

#[derive(Default)]
pub struct Tally {
    pub histories: u64,
    calls: BTreeMap<&'static str, Answers>,
    laid: BTreeMap<&'static str, u64>,
    starts: u64,
    /// Starts that were later than the clock.
    pub later: u64,
    /// R65: rewritten cards of which a slot was named.
    pub turned: u64,
    /// How often each of `met::all` was met, by its name.
    met: BTreeMap<&'static str, u64>,
}

impl Tally {
    /// One operation, what its calls were told, and the desk after them, with the image before.
    pub fn count(&mut self, operation: &Operation, all: &[Told], before: &[u8], desk: &Desk) {
        let name = operation.name();
        let Some((act, _)) = operation.calls() else {
            *self.laid.entry(name).or_default() += 1;
            return;
        };
        let answers = self.calls.entry(name).or_default();
        for told in all {
            answers[told.number as usize] += 1;
        }
        for told in all.iter().filter(|told| told.number == 0) {
            self.count_granted(&act, told, desk);
        }
        let mut table = image::read(before).ok();
        for told in all {
            let Some(now) = table else { break };
            self.count_met(&act, told, &now, desk);
            // Several calls are steps: what the table was before the next one.
            table = rules::step(&now).ok().map(|(next, _)| next);
        }
    }

    fn count_met(&mut self, act: &Act, told: &Told, table: &Table, desk: &Desk) {
        let call = met::Call {
            act,
            told,
            table,
            desk,
        };
        for (name, _) in met::all().filter(|(_, is_met)| is_met(&call)) {
            *self.met.entry(name).or_default() += 1;
        }
    }

    fn count_granted(&mut self, act: &Act, told: &Told, desk: &Desk) {
        match act {
            Act::Ask(_) | Act::Admit(_) => {
                self.starts += 1;
                // An admission keeps the clock.
                self.later += u64::from(told.value > image::clock(desk.image.part()));
            }
            Act::Rewrite => self.turned += u64::from(told.place != 0),
            _ => {}
        }
    }

    /// How many calls were compared.
    pub fn compared(&self) -> u64 {
        self.calls.values().flatten().sum()
    }

    fn all(&self) -> Answers {
        let mut sum = Answers::default();
        for answers in self.calls.values() {
            for (total, answered) in sum.iter_mut().zip(answers) {
                *total += answered;
            }
        }
        sum
    }

    /// R20, R32: the refusals that no call was told, and the one that is not given, if a call was told it.
    pub fn amiss(&self) -> Vec<usize> {
        let all = self.all();
        let amiss = |number: &usize| (all[*number] == 0) != (*number == NOT_GIVEN);
        (1..=REFUSALS).filter(amiss).collect()
    }

    fn met(&self) -> impl Iterator<Item = (&'static str, u64)> + '_ {
        met::all().map(|(name, _)| (name, self.met.get(name).copied().unwrap_or(0)))
    }

    /// What no call met of all that can be met.
    pub fn unmet(&self) -> Vec<&'static str> {
        let unmet = self.met().filter(|(_, times)| *times == 0);
        unmet.map(|(name, _)| name).collect()
    }
}

/// A line for each call and one for all, the starts, the reordered cards, what was met, and what was laid on the desk.
impl fmt::Display for Tally {
    fn fmt(&self, f: &mut fmt::Formatter<'_>) -> fmt::Result {
        for (name, answers) in &self.calls {
            write_answers(f, name, answers)?;
        }
        write_answers(f, "all", &self.all())?;
        let (starts, later) = (self.starts, self.later);
        writeln!(f, "starts {starts}, later than the clock {later}")?;
        writeln!(f, "rewritten with slots reordered {}", self.turned)?;
        for (name, times) in self.met() {
            writeln!(f, "met {times}: {name}")?;
        }
        let laid = self
            .laid
            .iter()
            .map(|(name, count)| format!(" {name}:{count}"));
        writeln!(f, "laid{}", laid.collect::<String>())
    }
}

fn write_answers(f: &mut fmt::Formatter<'_>, name: &str, answers: &Answers) -> fmt::Result {
    let given = (1..=REFUSALS).filter(|number| answers[*number] > 0);
    let refused: String = given.map(|n| format!(" {n}:{}", answers[n])).collect();
    let calls: u64 = answers.iter().sum();
    let word = if refused.is_empty() { "" } else { " refused" };
    writeln!(f, "{name} {calls} granted {}{word}{refused}", answers[0])
}
