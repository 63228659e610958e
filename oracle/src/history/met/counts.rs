//! What the counts can meet (R24, R42, R96, R98).

use super::{Call, Meeting};
use crate::boundary::Act;
use crate::rules;
use crate::types::SLOTS;

impl Call<'_> {
    /// R24: who looks at the counts.
    fn tests(&self) -> bool {
        self.asked().is_some() || matches!(self.act, Act::Step | Act::Leave(_))
    }

    /// Too many of them where nobody looks.
    fn passes(&self, name: &str) -> bool {
        self.act.name() == name && self.is_granted() && self.table.is_overcounted()
    }

    /// R18, R48, R100: refused by this number, with too many of them.
    fn refused_by(&self, number: u64) -> bool {
        self.tests() && self.told.number == number && self.table.is_overcounted()
    }

    /// R96: refused by the counts.
    pub(super) fn overcounted(&self) -> bool {
        self.refused_by(4) && self.table.lowest_unsound().is_none()
    }

    /// R96: by how much they are above the clock.
    fn above(&self) -> u128 {
        let clock = u128::from(self.table.clock);
        self.table.counts.sum().saturating_sub(clock)
    }
}

fn equal_to_the_clock(call: &Call) -> bool {
    let sum = call.table.counts.sum();
    call.tests() && call.is_granted() && sum > 0 && sum == call.table.clock.into()
}

fn wraps(call: &Call) -> bool {
    let sum = call.table.counts.sum();
    call.overcounted() && sum % (1 << 64) <= call.table.clock.into()
}

fn idle_alone(call: &Call) -> bool {
    let counts = &call.table.counts;
    call.overcounted() && counts.had == [0; SLOTS] && counts.departed == 0
}

fn departed_alone(call: &Call) -> bool {
    let counts = &call.table.counts;
    call.overcounted() && counts.had == [0; SLOTS] && counts.idle == 0
}

fn beside_nothing(call: &Call) -> bool {
    call.overcounted() && !call.table.counted_where_used().is_overcounted()
}

/// R19: in slot 0 the two parts of R24 have the same place.
fn line_first(call: &Call) -> bool {
    call.refused_by(4) && call.table.lowest_unsound().is_some_and(|slot| slot > 0)
}

fn before_5(call: &Call) -> bool {
    let uncounted = call.asked_of(&call.table.uncounted());
    let five = uncounted.is_some_and(|told| told.is_err_and(|refusal| refusal.number == 5));
    call.overcounted() && five
}

fn before_14(call: &Call) -> bool {
    let stepped = rules::step(&call.table.uncounted());
    let short = stepped.is_err_and(|refusal| refusal.number == 14);
    call.overcounted() && *call.act == Act::Step && short
}

fn admitted_to_a_count(call: &Call) -> bool {
    let counted = |slot: usize| call.table.counts.had[slot] > 0;
    let admits = matches!(call.act, Act::Admit(_)) && call.is_granted();
    admits && call.table.lowest_empty().is_some_and(counted)
}

#[rustfmt::skip]
pub const ALL: [Meeting; 17] = [
    ("counts equal to the clock, granted", equal_to_the_clock),
    ("counts one above", |call| call.overcounted() && call.above() == 1),
    ("counts whose sum wraps", wraps),
    ("counts, the idle one alone", idle_alone),
    ("counts, the departed one alone", departed_alone),
    ("counts beside empty slots alone", beside_nothing),
    ("a line before the counts", line_first),
    ("1 before the counts", |call| call.refused_by(1)),
    ("2 before the counts", |call| call.refused_by(2)),
    ("3 before the counts", |call| call.refused_by(3)),
    ("15 before the counts", |call| call.refused_by(15)),
    ("counts before 5", before_5),
    ("counts before 14", before_14),
    ("admitted to a slot with a count", admitted_to_a_count),
    ("counts, too many, shown", |call| call.passes("counts")),
    ("counts, too many, ready", |call| call.passes("ready")),
    ("counts, too many, written", |call| call.passes("write_card")),
];
