//! Tables, lines, counts, last slots, requests and refusals (R2 to R8, R17, R95, R99, R103, R105) as types of this program's own.

use std::fmt;

/// R2: slots of a table.
pub const SLOTS: usize = 16;

/// R95: counts of a table: one for each slot, the idle count and the departed count.
#[cfg(any(test, feature = "house"))]
pub const COUNTS: usize = SLOTS + 2;

/// R81, R98: where the idle count stands among them; the departed count is the last.
#[cfg(any(test, feature = "house"))]
pub const IDLE: usize = SLOTS;

/// R7: where the clock stops.
pub const LAST_TICK: u64 = 1 << 48;

/// R7: the latest clock at which ask and admit still work.
pub const LAST_ASK: u64 = LAST_TICK - 65_536;

/// R8: the greatest frame that is not refused.
pub const FRAME_LIMIT: u64 = 1_000_000;

/// R55: bytes of a card with all sixteen slots in use.
pub const LONGEST_CARD: usize = 208;

/// R99: what follows the present period of a line that runs: its next one, or an empty slot.
#[derive(Clone, Copy, Debug, PartialEq, Eq)]
pub enum Follows {
    Renews,
    Leaves,
}

/// R3: C, T, a and c of a line that runs, and what follows its period.
#[derive(Clone, Copy, Debug, PartialEq, Eq)]
pub struct Run {
    pub need: u16,
    pub period: u16,
    pub age: u16,
    pub remaining: u16,
    pub follows: Follows,
}

/// R3: C, T and w of a line that has not started yet.
#[derive(Clone, Copy, Debug, PartialEq, Eq)]
pub struct Wait {
    pub need: u16,
    pub period: u16,
    pub wait: u16,
}

/// R2: what stands in a slot.
#[derive(Clone, Copy, Debug, PartialEq, Eq)]
pub enum Content {
    Nothing,
    Running(Run),
    Waiting(Wait),
}

/// R95: the ticks that the present line of each slot has had since it was admitted, those in which no line ran, and those of
/// lines that are gone.
#[derive(Clone, Copy, Debug, PartialEq, Eq)]
pub struct Counts {
    pub had: [u64; SLOTS],
    pub idle: u64,
    pub departed: u64,
}

/// R4, R56: nothing is counted yet.
pub const NO_COUNTS: Counts = Counts {
    had: [0; SLOTS],
    idle: 0,
    departed: 0,
};

/// R105: the last slot that is none.
pub const NO_LAST: u8 = 255;

/// R2: a clock, 16 slots, their counts and the last slot.
#[derive(Clone, Copy, Debug, PartialEq, Eq)]
pub struct Table {
    pub clock: u64,
    pub slots: [Content; SLOTS],
    pub counts: Counts,
    /// R105: the number of the slot that got the last tick, or any other, which names no slot.
    pub last: u8,
}

/// R4: where every run begins.
pub const EMPTY: Table = Table {
    clock: 0,
    slots: [Content::Nothing; SLOTS],
    counts: NO_COUNTS,
    last: NO_LAST,
};

/// R6: T' slot by slot, then Cn and Tn.
#[derive(Clone, Copy, Debug, PartialEq, Eq)]
pub struct Request {
    pub stretched: [u16; SLOTS],
    pub need: u16,
    pub period: u16,
}

#[cfg(any(test, feature = "house"))]
impl Request {
    /// The same with each running line's own period for its T'.
    pub fn unstretched(&self, table: &Table) -> Request {
        let mut own = *self;
        for (slot, run) in table.running() {
            own.stretched[slot] = run.period;
        }
        own
    }
}

/// R56: the request that the reader hands out with a refusal.
pub const ZEROS: Request = Request {
    stretched: [0; SLOTS],
    need: 0,
    period: 0,
};

/// R17: which ground, and where. R103: of 10 the first tick that is short, and by how much; of any other 0 and 0.
#[derive(Clone, Copy, Debug, PartialEq, Eq)]
pub struct Refusal {
    pub number: u8,
    pub place: u64,
    pub tick: u64,
    pub excess: u64,
}

impl Refusal {
    /// R19, R31: the place is a slot or a byte offset.
    pub fn at(number: u8, place: usize) -> Refusal {
        Refusal::named(number, place as u64)
    }

    /// R36: the place is a number as it was named.
    pub fn named(number: u8, place: u64) -> Refusal {
        Refusal {
            number,
            place,
            tick: 0,
            excess: 0,
        }
    }

    /// R30, R103: refusal 10.
    pub fn late(tick: u64, excess: u64) -> Refusal {
        Refusal {
            tick,
            excess,
            ..Refusal::at(10, 0)
        }
    }
}

/// R61: what stands behind a refusal's place in a line: tick and excess, where they are not both 0.
pub fn by_how_much(tick: u64, excess: u64) -> String {
    match (tick, excess) {
        (0, 0) => String::new(),
        _ => format!(" {tick} {excess}"),
    }
}

/// R61: as it stands in a line.
impl fmt::Display for Refusal {
    fn fmt(&self, f: &mut fmt::Formatter<'_>) -> fmt::Result {
        let more = by_how_much(self.tick, self.excess);
        write!(f, "refused {} {}{more}", self.number, self.place)
    }
}

impl Run {
    /// R99: it is in its last period.
    pub fn leaves(&self) -> bool {
        self.follows == Follows::Leaves
    }

    /// R5: a need within the period, no more owed than that, the period not over.
    pub fn is_sound(&self) -> bool {
        1 <= self.need
            && self.need <= self.period
            && self.remaining <= self.need
            && self.age < self.period
    }
}

impl Wait {
    /// R5: a need within the period, and some tick still to wait.
    pub fn is_sound(&self) -> bool {
        1 <= self.need && self.need <= self.period && self.wait >= 1
    }
}

impl Content {
    /// R5: an empty slot has no line that could be unsound.
    pub fn is_sound(&self) -> bool {
        match self {
            Content::Nothing => true,
            Content::Running(run) => run.is_sound(),
            Content::Waiting(wait) => wait.is_sound(),
        }
    }

    /// True for a slot that holds a waiting line.
    pub fn is_waiting(&self) -> bool {
        matches!(self, Content::Waiting(_))
    }

    /// True for a slot that holds a running line that leaves.
    pub fn is_leaving(&self) -> bool {
        matches!(self, Content::Running(run) if run.leaves())
    }
}

impl Counts {
    /// R96: all of them together, exact: eighteen numbers of 64 bits are far from the end of 128.
    pub fn sum(&self) -> u128 {
        let had: u128 = self.had.iter().map(|ticks| u128::from(*ticks)).sum();
        had + u128::from(self.idle) + u128::from(self.departed)
    }

    /// R81, R98: in their order: slot 0 first, then the idle count, then the departed one.
    #[cfg(any(test, feature = "house"))]
    pub fn all(&self) -> [u64; COUNTS] {
        let mut all = [self.departed; COUNTS];
        all[..SLOTS].copy_from_slice(&self.had);
        all[IDLE] = self.idle;
        all
    }

    /// One of them by its place in that order, to be changed.
    #[cfg(any(test, feature = "house"))]
    pub fn at_mut(&mut self, place: usize) -> &mut u64 {
        match place {
            0..SLOTS => &mut self.had[place],
            IDLE => &mut self.idle,
            _ => &mut self.departed,
        }
    }
}

impl Table {
    /// The running lines with their slots, from slot 0 up.
    pub fn running(&self) -> impl Iterator<Item = (usize, &Run)> {
        self.slots
            .iter()
            .enumerate()
            .filter_map(|(slot, content)| match content {
                Content::Running(run) => Some((slot, run)),
                _ => None,
            })
    }

    /// R44: those of them that are owed.
    pub fn owed(&self) -> impl Iterator<Item = (usize, &Run)> {
        self.running().filter(|(_, run)| run.remaining > 0)
    }

    /// The running lines without their slots, to be changed.
    #[cfg(any(test, feature = "house"))]
    pub fn running_mut(&mut self) -> impl Iterator<Item = &mut Run> {
        self.slots.iter_mut().filter_map(|content| match content {
            Content::Running(run) => Some(run),
            _ => None,
        })
    }

    /// The lowest slot whose content answers yes.
    pub fn lowest(&self, question: impl Fn(&Content) -> bool) -> Option<usize> {
        self.slots.iter().position(question)
    }

    /// R5, R24: the lowest slot whose line is not sound.
    pub fn lowest_unsound(&self) -> Option<usize> {
        self.lowest(|content| !content.is_sound())
    }

    /// R96: more ticks are counted than have gone by.
    pub fn is_overcounted(&self) -> bool {
        self.counts.sum() > u128::from(self.clock)
    }

    /// The same with every line renewing.
    #[cfg(any(test, feature = "house"))]
    pub fn renewing(&self) -> Table {
        let mut renewing = *self;
        for run in renewing.running_mut() {
            run.follows = Follows::Renews;
        }
        renewing
    }

    /// The same with nothing counted.
    #[cfg(any(test, feature = "house"))]
    pub fn uncounted(&self) -> Table {
        Table {
            counts: NO_COUNTS,
            ..*self
        }
    }

    /// The same with nothing counted beside slots that hold nothing.
    #[cfg(any(test, feature = "house"))]
    pub fn counted_where_used(&self) -> Table {
        let mut used = *self;
        for (ticks, content) in used.counts.had.iter_mut().zip(&self.slots) {
            *ticks *= u64::from(*content != Content::Nothing);
        }
        used
    }

    /// The lowest slot that holds nothing.
    pub fn lowest_empty(&self) -> Option<usize> {
        self.lowest(|content| *content == Content::Nothing)
    }

    /// R105: the slot that got the last tick, whatever it holds; none where the number names no slot.
    pub fn last_slot(&self) -> Option<usize> {
        Some(usize::from(self.last)).filter(|slot| *slot < SLOTS)
    }

    /// The same after a tick of nobody.
    pub fn without_last(&self) -> Table {
        Table {
            last: NO_LAST,
            ..*self
        }
    }
}
