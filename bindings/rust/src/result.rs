//! R63: what the five numbers of a result mean.

use crate::numbers::{Numbers, NO_SLOT};
use crate::{Answer, Late, Refusal, Rewritten};

impl Numbers {
    /// What is granted, or the refusal.
    pub(crate) fn granted<T>(self, meaning: impl FnOnce(Numbers) -> T) -> Result<T, Refusal> {
        if self.number == 0 {
            return Ok(meaning(self));
        }
        Err(Refusal {
            // R17: it has 16 bits.
            number: self.number as u16,
            place: self.place,
            late: self.late(),
        })
    }

    /// R103: what 10 says; any other refusal has 0 for both.
    fn late(self) -> Option<Late> {
        let Numbers { tick, excess, .. } = self;
        let is_said = tick != 0 || excess != 0;
        is_said.then_some(Late {
            tick,
            // R103: it has 32 bits.
            excess: excess as u32,
        })
    }

    /// R66, R98, R102: ticks.
    pub(crate) fn ticks(self) -> u64 {
        self.value
    }

    /// Of what was written to lent bytes, and so within theirs.
    pub(crate) fn length(self) -> usize {
        self.value as usize
    }

    /// R86: the value is the start, the place the new line's slot.
    pub(crate) fn answer(self) -> Answer {
        Answer {
            start: self.value,
            slot: self.place as usize,
        }
    }

    /// R65: the value is the card's length, the place a word of sixteen bits.
    pub(crate) fn rewritten(self) -> Rewritten {
        Rewritten {
            length: self.length(),
            turned: self.place as u16,
        }
    }

    pub(crate) fn slot(self) -> Option<usize> {
        (self.value != NO_SLOT).then_some(self.value as usize)
    }

    /// R49: sixteen bits.
    pub(crate) fn word(self) -> u16 {
        self.value as u16
    }
}
