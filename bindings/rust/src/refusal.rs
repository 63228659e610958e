//! Refusals: a number, a place, by how much it is late, and the words for it.

use core::{error, fmt};

/// R17: a refusal.
#[derive(Clone, Copy, Debug, PartialEq, Eq, Hash)]
pub struct Refusal {
    /// Refusal n is rule R(20 + n) of docs/RULES.md.
    pub number: u16,
    /// The slot, the number or the byte offset that it speaks of, or 0.
    pub place: u64,
    /// What 10 says beside that; no other refusal has it.
    pub late: Option<Late>,
}

/// R103: the first tick at which the running lines alone, at their stretched periods, want more than there is time for, and by how
/// much.
#[derive(Clone, Copy, Debug, PartialEq, Eq, Hash)]
pub struct Late {
    /// The tick, by the table's clock. Later ones may be short by more.
    pub tick: u64,
    /// By how many ticks they are short then.
    pub excess: u32,
}

/// R21 to R36: why, by the refusal's number. The header has the same words. 12 is no longer given; its number stays
/// taken (R32).
const WHY: [&str; 17] = [
    "no refusal has this number",
    "the clock is too late to ask",
    "no slot is empty",
    "a line still waits",
    "a line's numbers are unsound, or more ticks are counted than have gone by",
    "a period would be shortened, or a leaving line's changed",
    "the new line does not fit its period",
    "the frame is above 1,000,000",
    "more than all of the pump is asked for",
    "the lines are behind their shares",
    "the running lines alone come too late",
    "a broken card or image",
    "an old-order mark, which is no longer refused",
    "the buffer is too short",
    "a period ended short",
    "the clock's last tick",
    "no line is there that could be let go",
];

impl Refusal {
    /// Why, in words.
    #[must_use]
    pub fn why(self) -> &'static str {
        WHY.get(usize::from(self.number)).unwrap_or(&WHY[0])
    }

    /// R50: how often the front lamp blinks for it.
    #[must_use]
    pub fn blinks(self) -> u8 {
        crate::lamp(u64::from(self.number))
    }
}

impl fmt::Display for Refusal {
    fn fmt(&self, f: &mut fmt::Formatter<'_>) -> fmt::Result {
        let Refusal {
            number,
            place,
            late,
        } = self;
        write!(f, "refusal {number} at {place}: {}", self.why())?;
        late.map_or(Ok(()), |late| write!(f, ": {late}"))
    }
}

impl fmt::Display for Late {
    fn fmt(&self, f: &mut fmt::Formatter<'_>) -> fmt::Result {
        let Late { tick, excess } = self;
        let ticks = if *excess == 1 { "tick" } else { "ticks" };
        write!(f, "{excess} {ticks} short at tick {tick}")
    }
}

impl error::Error for Refusal {}
