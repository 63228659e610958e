//! What the last slot can meet (R44, R105).

use super::{Call, Meeting};
use crate::boundary::{Act, NO_SLOT};
use crate::rules;
use crate::types::{Content, Run, NO_LAST, SLOTS};

impl Call<'_> {
    fn last(&self) -> Option<usize> {
        self.table.last_slot()
    }

    fn last_holds(&self, question: impl Fn(&Content) -> bool) -> bool {
        let held = self.last().map(|slot| &self.table.slots[slot]);
        held.is_some_and(question)
    }

    fn last_runs(&self, question: impl Fn(&Run) -> bool) -> bool {
        self.last_holds(|content| matches!(content, Content::Running(run) if question(run)))
    }

    /// R105: a number that is neither a slot's nor none.
    fn last_is_no_slot(&self) -> bool {
        self.last().is_none() && self.table.last != NO_LAST
    }

    /// R44: a step that is granted, with the slots of those that end first, the lowest first.
    fn steps(&self, question: impl Fn(&[usize]) -> bool) -> bool {
        let granted = *self.act == Act::Step && self.is_granted();
        granted && question(&rules::first_to_end(self.table))
    }

    /// The same with several of them, so that the last slot decides or the lowest.
    fn steps_of_several(&self) -> bool {
        self.steps(|first| first.len() > 1)
    }

    /// R44: the slot of this number is one of those that end first, and not the lowest.
    fn before_a_lower(&self, slot: usize) -> bool {
        self.steps(|first| first.iter().skip(1).any(|other| *other == slot))
    }

    /// R44: the last slot goes on, though a lower one ends as soon.
    fn goes_on(&self) -> bool {
        self.last().is_some_and(|slot| self.before_a_lower(slot))
    }

    /// R44: by how many ticks the last slot ends later than the slot that is served; none where either has no line that runs.
    fn later_by(&self) -> Option<i32> {
        let left = |slot: usize| match self.table.slots[slot] {
            Content::Running(run) => Some(i32::from(run.period) - i32::from(run.age)),
            _ => None,
        };
        let ran = self.ran().filter(|_| self.steps(|_| true))?;
        Some(left(self.last()?)? - left(ran)?)
    }

    /// R44: the last slot is owed, and a line that ends a tick sooner has the tick.
    fn a_tick_sooner(&self) -> bool {
        self.later_by() == Some(1) && self.last_runs(|run| run.remaining > 0)
    }

    /// A step, refused by this number, after a tick of a slot.
    fn step_refused(&self, number: u64) -> bool {
        *self.act == Act::Step && self.told.number == number && self.last().is_some()
    }

    fn admits(&self) -> bool {
        matches!(self.act, Act::Admit(_)) && self.is_granted()
    }

    /// A call by its name that is granted, or refused, after a tick of a slot.
    fn after(&self, name: &str, granted: bool) -> bool {
        self.act.name() == name && self.is_granted() == granted && self.last().is_some()
    }

    /// R88: the slot that got the tick of a granted step, if one did.
    fn ran(&self) -> Option<usize> {
        let ran = Some(self.told.value).filter(|slot| *slot != NO_SLOT);
        ran.map(|slot| slot as usize)
    }

    /// R100: the number that leave is called with is the last slot's.
    fn names_the_last(&self) -> bool {
        self.number() == self.last().map(|slot| slot as u64)
    }

    fn removes(&self, question: impl Fn(&Self) -> bool) -> bool {
        self.lets_waiting_go() && question(self)
    }

    fn asks_to_leave(&self, names_the_last: bool) -> bool {
        let last = self.last().is_some() && self.names_the_last() == names_the_last;
        self.lets_running_go(|_| true) && last
    }
}

/// R44: it is the lowest of several.
fn before_a_higher(call: &Call) -> bool {
    call.steps(|first| first.len() > 1 && call.last() == Some(first[0]))
}

/// R44: it ends as soon as the line that is served, or sooner, but is owed nothing.
fn owed_nothing(call: &Call) -> bool {
    let soon = call.later_by().is_some_and(|ticks| ticks <= 0);
    soon && call.last_runs(|run| run.remaining == 0)
}

/// Of the number the lowest four bits name a line that would go on.
fn lowest_bits(call: &Call) -> bool {
    call.last_is_no_slot() && call.before_a_lower(usize::from(call.table.last) % SLOTS)
}

fn idle(call: &Call) -> bool {
    call.steps(|first| first.is_empty()) && call.last().is_some()
}

/// R105: it got the last tick but one too.
fn gone_with_the_tick(call: &Call) -> bool {
    let gone = |slot: usize| call.gone().contains(&slot);
    call.ran().is_some_and(gone) && call.last() == call.ran()
}

fn another_gone(call: &Call) -> bool {
    let gone = call.gone();
    !gone.is_empty() && call.ran().is_some_and(|slot| !gone.contains(&slot))
}

/// The last is gone, in a tick of another.
fn gone_without_the_tick(call: &Call) -> bool {
    let gone = |slot: usize| call.gone().contains(&slot);
    call.last().is_some_and(gone) && call.ran().is_some() && call.ran() != call.last()
}

/// R42: the line of the last slot has another period from then on.
fn stretched(call: &Call) -> bool {
    let stretched = call.last().map(|slot| call.desk.stretched.part()[slot]);
    call.admits() && call.last_runs(|run| stretched > Some(run.period))
}

fn admitted_to_it(call: &Call) -> bool {
    call.admits() && call.last() == Some(call.told.place as usize)
}

#[rustfmt::skip]
pub const ALL: [Meeting; 31] = [
    ("the last goes on before a lower slot", |call| call.goes_on()),
    ("the last goes on before a lower slot, in a new period", |call| call.goes_on() && call.last_runs(|run| run.age == 0)),
    ("the last goes on before a lower slot, and leaves", |call| call.goes_on() && call.last_runs(Run::leaves)),
    ("the last goes on before a higher slot", before_a_higher),
    ("a tick sooner than the last, in a lower slot", |call| call.a_tick_sooner() && call.ran() < call.last()),
    ("a tick sooner than the last, in a higher slot", |call| call.a_tick_sooner() && call.ran() > call.last()),
    ("the last owed nothing", owed_nothing),
    ("the last an empty slot", |call| call.steps_of_several() && call.last_holds(|content| *content == Content::Nothing)),
    ("the last a waiting line", |call| call.steps_of_several() && call.last_holds(Content::is_waiting)),
    ("the last no slot", |call| call.steps_of_several() && call.last_is_no_slot()),
    ("the last no slot but for the lowest bits", lowest_bits),
    ("no last, and equal ends", |call| call.steps_of_several() && call.table.last == NO_LAST),
    ("the last, and an idle tick", idle),
    ("the last gone with its tick", gone_with_the_tick),
    ("the last gone in a tick of another", gone_without_the_tick),
    ("gone in a tick of another", another_gone),
    ("removed, the last", |call| call.removes(Call::names_the_last)),
    ("removed beside the last", |call| call.removes(|call| call.last().is_some() && !call.names_the_last())),
    ("removed beside a last that is no slot", |call| call.removes(Call::last_is_no_slot)),
    ("asked to leave, the last", |call| call.asks_to_leave(true)),
    ("asked to leave beside the last", |call| call.asks_to_leave(false)),
    ("leave refused beside the last", |call| call.after("leave", false)),
    ("admitted beside the last", |call| call.admits() && call.last_runs(|_| true)),
    ("admitted, the last stretched", stretched),
    ("admitted to the last slot", admitted_to_it),
    ("an admission refused beside the last", |call| call.after("admit", false)),
    ("15 after a slot's tick", |call| call.step_refused(15)),
    ("4 after a slot's tick", |call| call.step_refused(4)),
    ("14 after a slot's tick", |call| call.step_refused(14)),
    ("read from a card after a slot's tick", |call| call.after("read_card", true)),
    ("emptied after a slot's tick", |call| call.after("empty", true)),
];
