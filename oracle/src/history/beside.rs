//! Two desks on which the same operations are done: on one by the rules, on the other by the library.

use super::operation::Operation;
use crate::boundary::{self, Act, Desk, Told};

/// What a call tells and leaves on its desk.
pub type Doer = fn(&Act, &mut Desk) -> Told;

/// A call that was told something else, or left something else, than the rules say.
#[derive(Debug)]
pub struct Difference {
    /// How many calls of the same operation came before it.
    pub before: usize,
    pub told: Told,
    pub wanted: Told,
    pub left: Desk,
    pub expected: Desk,
}

/// What an operation's calls were told, or the first of them that differs.
pub type Compared = Result<Vec<Told>, Box<Difference>>;

pub struct Beside {
    library: Doer,
    left: Desk,
    /// The desk as the rules leave it.
    pub desk: Desk,
}

impl Beside {
    pub fn new(library: Doer) -> Beside {
        Beside {
            library,
            left: Desk::new(),
            desk: Desk::new(),
        }
    }

    /// One operation on both desks; steps end at the first that is refused.
    pub fn operate(&mut self, operation: &Operation) -> Compared {
        operation.lay(&mut self.left);
        operation.lay(&mut self.desk);
        let mut all = Vec::new();
        if let Some((act, times)) = operation.calls() {
            for _ in 0..times {
                let told = self.call(&act, all.len())?;
                all.push(told);
                if told.number != 0 {
                    break;
                }
            }
        }
        Ok(all)
    }

    /// One call on both desks: what is told has to be the same, and every byte and number that lies there.
    fn call(&mut self, act: &Act, before: usize) -> Result<Told, Box<Difference>> {
        let told = (self.library)(act, &mut self.left);
        let wanted = boundary::should(act, &mut self.desk);
        if told == wanted && self.left == self.desk {
            return Ok(wanted);
        }
        Err(Box::new(Difference {
            before,
            told,
            wanted,
            left: self.left.clone(),
            expected: self.desk.clone(),
        }))
    }
}

/// The first operation of a history that differs, and how.
pub fn first_difference(library: Doer, history: &[Operation]) -> Option<(usize, Box<Difference>)> {
    let mut beside = Beside::new(library);
    let differs = |(index, operation)| Some((index, beside.operate(operation).err()?));
    history.iter().enumerate().find_map(differs)
}
