//! Tables and answers as they are written out by hand, for tests.

use crate::rules::step;
use crate::types::{Content, Follows, Refusal, Run, Table, Wait, EMPTY};

/// R3: a running line by C, T, age and remaining.
fn line([need, period, age, remaining]: [u16; 4], follows: Follows) -> Content {
    Content::Running(Run {
        need,
        period,
        age,
        remaining,
        follows,
    })
}

pub fn runs(numbers: [u16; 4]) -> Content {
    line(numbers, Follows::Renews)
}

pub fn leaves(numbers: [u16; 4]) -> Content {
    line(numbers, Follows::Leaves)
}

/// R3: a waiting line by C, T and wait.
pub fn waits([need, period, wait]: [u16; 3]) -> Content {
    Content::Waiting(Wait { need, period, wait })
}

/// A table by its clock, some slots, and some counts by their places.
pub fn table(clock: u64, slots: &[(usize, Content)], counts: &[(usize, u64)]) -> Table {
    let mut table = Table { clock, ..EMPTY };
    for (slot, content) in slots {
        table.slots[*slot] = *content;
    }
    for (place, ticks) in counts {
        *table.counts.at_mut(*place) = *ticks;
    }
    table
}

pub fn refused<T>(number: u8, place: u64) -> Result<T, Refusal> {
    Err(Refusal::named(number, place))
}

/// The slots that ran, and the table after.
pub fn stepped(mut table: Table, times: usize) -> (Vec<Option<usize>>, Table) {
    let mut ran = Vec::new();
    for _ in 0..times {
        let (next, slot) = step(&table).expect("in order");
        ran.push(slot);
        table = next;
    }
    (ran, table)
}
