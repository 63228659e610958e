//! What refusal 10 can meet (R30, R61, R103).

use super::{Call, Meeting};
use crate::boundary::Act;
use crate::rules::{ends_alone, End};
use crate::types::{Content, Request, Run};

/// The first tick at which an end is short.
fn first_short(ends: &[End]) -> Option<u64> {
    let short = ends.iter().filter(|end| end.excess > 0);
    short.map(|end| end.tick).min()
}

impl Call<'_> {
    /// The request of an ask or an admission that is refused by this number.
    fn refused(&self, number: u64) -> Option<Request> {
        self.request().filter(|_| self.told.number == number)
    }

    /// R30
    fn is_late(&self) -> bool {
        self.refused(10).is_some()
    }

    /// R103: refused by 10, with these ends of the running lines.
    fn late(&self, question: impl Fn(&[End]) -> bool) -> bool {
        let ends = self.refused(10).map(|asked| ends_alone(self.table, &asked));
        ends.is_some_and(|ends| question(&ends))
    }

    /// The same with the ends at the tick that is told; R104: there is one.
    fn late_at(&self, question: impl Fn(&[&End]) -> bool) -> bool {
        self.late(|ends| {
            let there = ends.iter().filter(|end| end.tick == self.told.tick);
            question(&Vec::from_iter(there))
        })
    }

    /// R99: the line of a slot, if it leaves.
    fn leaving(&self, slot: usize) -> Option<&Run> {
        match &self.table.slots[slot] {
            Content::Running(run) if run.leaves() => Some(run),
            _ => None,
        }
    }
}

/// Slot by slot the first short end is another than in time.
fn lower_slot_later(call: &Call) -> bool {
    call.late(|ends| {
        let first = ends.iter().find(|end| end.excess > 0);
        first.is_some_and(|end| end.tick > call.told.tick)
    })
}

fn greater_later(call: &Call) -> bool {
    let greater = |end: &End| end.excess > call.told.excess as i64;
    call.late(|ends| ends.iter().any(greater))
}

/// Short, in time at a later end, and short again.
fn in_time_between(call: &Call) -> bool {
    call.late(|ends| {
        let short = ends.iter().filter(|end| end.excess > 0);
        let last = short.map(|end| end.tick).max();
        let between = |end: &End| end.tick > call.told.tick && Some(end.tick) < last;
        ends.iter().any(|end| end.excess <= 0 && between(end))
    })
}

/// R9: the end at the tick is not the first of its line.
fn a_further_end(call: &Call) -> bool {
    let tick = call.told.tick;
    call.late(|ends| {
        let before = |slot: usize| ends.iter().any(|end| end.slot == slot && end.tick < tick);
        let mut there = ends.iter().filter(|end| end.tick == tick);
        there.all(|end| before(end.slot))
    })
}

fn of_one_that_leaves(call: &Call) -> bool {
    let leaves = |end: &&End| call.leaving(end.slot).is_some();
    call.late_at(|there| there.iter().all(leaves))
}

/// R10: a line that leaves has had its end before, and what it was owed is wanted still.
fn one_that_leaves_is_gone(call: &Call) -> bool {
    let owed = |end: &End| call.leaving(end.slot).is_some_and(|run| run.remaining > 0);
    let gone = |end: &End| end.tick < call.told.tick && owed(end);
    call.late(|ends| ends.iter().any(gone))
}

/// R9: at their own periods the lines would be short at another tick, or not at all.
fn by_the_stretched_periods(call: &Call) -> bool {
    let own = call.refused(10).map(|asked| asked.unstretched(call.table));
    let ends = own.map(|own| ends_alone(call.table, &own));
    ends.is_some_and(|ends| first_short(&ends) != Some(call.told.tick))
}

/// R18: 9 comes before 10, and says nothing of it.
fn behind_9(call: &Call) -> bool {
    let ends = call.refused(9).map(|asked| ends_alone(call.table, &asked));
    ends.is_some_and(|ends| first_short(&ends).is_some())
}

/// R61, R64: a card's line that says by how much it is late.
fn on_a_card(call: &Call) -> bool {
    let line = call.desk.out.part();
    *call.act == Act::Answer && call.is_granted() && line.starts_with(b"refused 10 ")
}

/// R66
fn on_a_card_that_runs(call: &Call) -> bool {
    matches!(call.act, Act::Run(_)) && call.told.number == 10
}

#[rustfmt::skip]
pub const ALL: [Meeting; 17] = [
    ("10, asked", |call| call.is_late() && matches!(call.act, Act::Ask(_))),
    ("10, admitted to", |call| call.is_late() && matches!(call.act, Act::Admit(_))),
    ("10, a tick short", |call| call.is_late() && call.told.excess == 1),
    ("10, several ticks short", |call| call.is_late() && call.told.excess > 1),
    ("10 at a clock above 0", |call| call.is_late() && call.table.clock > 0),
    ("10, a tick of more than 32 bits", |call| call.is_late() && call.told.tick >> 32 > 0),
    ("10, a later end in a lower slot", lower_slot_later),
    ("10, a greater excess later", greater_later),
    ("10, in time between", in_time_between),
    ("10, several ends at once", |call| call.late_at(|there| there.len() > 1)),
    ("10, a further end of a line", a_further_end),
    ("10, the end of one that leaves", of_one_that_leaves),
    ("10, one that leaves is gone", one_that_leaves_is_gone),
    ("10, another tick at the lines' own periods", by_the_stretched_periods),
    ("10 behind 9", behind_9),
    ("10 on a card", on_a_card),
    ("10 on a card that runs", on_a_card_that_runs),
];
