//! What lines that leave can meet (R25, R34, R36, R46, R53, R99 to R102).

use super::{Call, Meeting};
use crate::boundary::Act;
use crate::card;
use crate::rules;
use crate::types::{Content, Run, Table, LAST_ASK, LAST_TICK, SLOTS};

/// R100: what the slot of a number holds; none where it is no slot's.
fn held(table: &Table, number: u64) -> Option<&Content> {
    table.slots.get(usize::try_from(number).ok()?)
}

/// R36: whether 16 is the answer where nothing comes before it.
fn is_nobody(held: Option<&Content>) -> bool {
    held.is_none_or(|content| content.is_leaving() || *content == Content::Nothing)
}

impl Call<'_> {
    /// The number that leave is called with.
    pub(super) fn number(&self) -> Option<u64> {
        match self.act {
            Act::Leave(number) => Some(*number),
            _ => None,
        }
    }

    /// R100: leave is told this number, with this in the slot that it names, if that is one.
    fn leave(&self, told: u64, question: impl Fn(Option<&Content>) -> bool) -> bool {
        let held = self.number().map(|number| held(self.table, number));
        self.told.number == told && held.is_some_and(question)
    }

    pub(super) fn lets_waiting_go(&self) -> bool {
        self.leave(0, |held| held.is_some_and(Content::is_waiting))
    }

    pub(super) fn lets_running_go(&self, question: impl Fn(&Run) -> bool) -> bool {
        self.leave(
            0,
            |held| matches!(held, Some(Content::Running(run)) if question(run)),
        )
    }

    /// R46: the slots whose line is gone after this step.
    pub(super) fn gone(&self) -> Vec<usize> {
        let granted = *self.act == Act::Step && self.is_granted();
        let lines = self.table.running();
        let ends = lines.filter(|(_, run)| granted && run.leaves() && run.age + 1 == run.period);
        ends.map(|(slot, _)| slot).collect()
    }

    fn has_leaving(&self) -> bool {
        self.table.lowest(Content::is_leaving).is_some()
    }

    /// R99: asked of a table of which a line leaves, and told this number.
    fn asked_beside(&self, number: u64) -> bool {
        self.asked().is_some() && self.told.number == number && self.has_leaving()
    }

    /// R25: where 5 is told, the lines with a wrong T' and that, the lowest slot first.
    fn wrong(&self) -> Vec<(&Run, u16)> {
        let five = self.asked_beside(5);
        let lines = self.table.running();
        let stretched = lines.map(|(slot, run)| (run, self.desk.stretched.part()[slot]));
        let wrong = stretched.filter(|(run, t)| *t < run.period || run.leaves() && *t > run.period);
        wrong.filter(|_| five).collect()
    }

    /// R19, R25: of the lines with a wrong T' the lowest leaves, or renews, and one of the other kind is there too.
    fn lowest_of_both(&self, leaves: bool) -> bool {
        let kinds: Vec<bool> = self.wrong().iter().map(|(run, _)| run.leaves()).collect();
        kinds.first() == Some(&leaves) && kinds.contains(&!leaves)
    }

    /// R53: granted, and a line leaves on the card that was read.
    fn reads_leaving(&self) -> bool {
        let read = card::parse(self.desk.card.part());
        let leaves = read.is_ok_and(|card| card.table.lowest(Content::is_leaving).is_some());
        self.is_granted() && leaves
    }
}

fn waiting_with_a_count(call: &Call) -> bool {
    let counted = |number| call.table.counts.had[number as usize] > 0;
    call.lets_waiting_go() && call.number().is_some_and(counted)
}

/// R100: neither R21 nor R35 is looked at.
fn late(call: &Call, clock: u64) -> bool {
    call.leave(0, |_| true) && call.table.clock >= clock
}

/// R36: the lowest bits of the number name a slot that could be let go.
fn cut(call: &Call) -> bool {
    let cut = call.number().map(|number| number % SLOTS as u64);
    let granted = cut.is_some_and(|number| rules::leave(call.table, number).is_ok());
    call.leave(16, |held| held.is_none()) && granted
}

fn line_before_16(call: &Call) -> bool {
    call.leave(4, is_nobody) && !call.overcounted()
}

fn counts_before_16(call: &Call) -> bool {
    call.leave(4, is_nobody) && call.overcounted()
}

fn with_its_last_tick(call: &Call) -> bool {
    call.gone().contains(&(call.told.value as usize))
}

/// R101: another slot that holds nothing has a count, which stays.
fn beside_a_count(call: &Call) -> bool {
    let mut pairs = call.table.slots.iter().zip(call.table.counts.had);
    let counted = pairs.any(|(content, ticks)| *content == Content::Nothing && ticks > 0);
    counted && (call.lets_waiting_go() || !call.gone().is_empty())
}

fn short(call: &Call) -> bool {
    let ends = held(call.table, call.told.place);
    call.told.number == 14 && ends.is_some_and(Content::is_leaving)
}

fn later(call: &Call) -> bool {
    call.asked_beside(0) && call.told.value > call.table.clock
}

/// R10: a start, and not what would be told if every line renewed.
fn not_as_renewing(call: &Call) -> bool {
    let renewing = || call.asked_of(&call.table.renewing());
    call.asked_beside(0) && renewing().is_some_and(|told| told != Ok(call.told.value))
}

fn longer(call: &Call) -> bool {
    matches!(call.wrong()[..], [(run, stretched), ..] if run.leaves() && stretched > run.period)
}

fn shorter(call: &Call) -> bool {
    matches!(call.wrong()[..], [(run, stretched), ..] if run.leaves() && stretched < run.period)
}

fn ready(call: &Call) -> bool {
    let owed = |(slot, run): (usize, &Run)| run.leaves() && call.told.value >> slot & 1 == 1;
    *call.act == Act::Ready && call.is_granted() && call.table.running().any(owed)
}

fn written(call: &Call) -> bool {
    matches!(call.act, Act::WriteCard(_)) && call.is_granted() && call.has_leaving()
}

fn read(call: &Call) -> bool {
    *call.act == Act::ReadCard && call.reads_leaving()
}

fn rewritten(call: &Call) -> bool {
    *call.act == Act::Rewrite && call.told.place != 0 && call.reads_leaving()
}

#[rustfmt::skip]
pub const ALL: [Meeting; 33] = [
    ("let go, a running line", |call| call.lets_running_go(|_| true)),
    ("let go at age 0", |call| call.lets_running_go(|run| run.age == 0)),
    ("let go in its last tick", |call| call.lets_running_go(|run| run.age + 1 == run.period)),
    ("let go, a waiting line", |call| call.lets_waiting_go()),
    ("let go, a waiting line with a count", waiting_with_a_count),
    ("let go after the last ask", |call| late(call, LAST_ASK + 1)),
    ("let go at the last tick", |call| late(call, LAST_TICK)),
    ("16, no slot", |call| call.leave(16, |held| held.is_none())),
    ("16, no slot but for the lowest bits", cut),
    ("16, an empty slot", |call| call.leave(16, |held| held == Some(&Content::Nothing))),
    ("16, a line that leaves", |call| call.leave(16, |held| held.is_some_and(Content::is_leaving))),
    ("4 by a line before 16", line_before_16),
    ("4 by the counts before 16", counts_before_16),
    ("gone at its end", |call| !call.gone().is_empty()),
    ("gone with its last tick", with_its_last_tick),
    ("gone, several at once", |call| call.gone().len() > 1),
    ("gone beside a count of an empty slot", beside_a_count),
    ("14 by a line that leaves", short),
    ("granted beside a line that leaves", |call| call.asked_beside(0)),
    ("later beside a line that leaves", later),
    ("another start than if it renewed", not_as_renewing),
    ("2 with a line that leaves", |call| call.asked_beside(2)),
    ("8 with a line that leaves", |call| call.asked_beside(8)),
    ("9 with a line that leaves", |call| call.asked_beside(9)),
    ("10 with a line that leaves", |call| call.asked_beside(10)),
    ("5, a longer period of one that leaves", longer),
    ("5, a shorter period of one that leaves", shorter),
    ("5, one that leaves below one that renews", |call| call.lowest_of_both(true)),
    ("5, one that renews below one that leaves", |call| call.lowest_of_both(false)),
    ("ready, a line that leaves", ready),
    ("written, a line that leaves", written),
    ("read, a line that leaves", read),
    ("rewritten beside TA, a line that leaves", rewritten),
];
