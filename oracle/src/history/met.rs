//! What the calls of a comparison can meet. One that does not meet all of it has looked at less than it says.

mod counts;
mod last;
mod late;
mod leaving;

use crate::boundary::{Act, Desk, NewLine, Told};
use crate::rules;
use crate::types::{Refusal, Request, Table};

/// A call on a table that could be read, as it was before the call, with the desk after it; and what was told.
pub struct Call<'a> {
    pub act: &'a Act,
    pub told: &'a Told,
    pub table: &'a Table,
    pub desk: &'a Desk,
}

impl Call<'_> {
    /// The new line of an ask or an admission.
    fn asked(&self) -> Option<&NewLine> {
        match self.act {
            Act::Ask(line) | Act::Admit(line) => Some(line),
            _ => None,
        }
    }

    /// R6: the request of an ask or an admission; no call changes the stretched periods.
    fn request(&self) -> Option<Request> {
        self.asked().map(|line| self.desk.request(line))
    }

    fn is_granted(&self) -> bool {
        self.told.number == 0
    }

    /// What ask would have answered of another table, had it been asked.
    fn asked_of(&self, table: &Table) -> Option<Result<u64, Refusal>> {
        let request = self.request()?;
        Some(rules::ask_before_last_end(table, &request))
    }
}

/// What can be met, by its name, and whether a call has met it.
pub type Meeting = (&'static str, fn(&Call) -> bool);

/// Each of them.
pub fn all() -> impl Iterator<Item = Meeting> {
    let lines = leaving::ALL.into_iter().chain(late::ALL);
    let lines = lines.chain(last::ALL);
    counts::ALL.into_iter().chain(lines)
}
