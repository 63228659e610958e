//! The table (R2 to R6, R95, R99, R105) and its step (R44 to R48, R97, R101, R105), in place.

/// R2: slots of a table.
pub const SLOTS: usize = 16;

/// R105: the last slot that is none.
const NONE: u8 = 255;

/// R44: above the ticks that are left of any period.
const NOT_OWED: u32 = 1 << 16;

/// R2, R3, R99: what a slot holds.
#[derive(Clone, Copy, Debug, PartialEq, Eq)]
pub enum Held {
    Nothing,
    Running {
        need: u16,
        period: u16,
        age: u16,
        remaining: u16,
        leaves: bool,
    },
    Waiting {
        need: u16,
        period: u16,
        wait: u16,
    },
}

/// R2: the table; R95: what the present line of each slot has had, the ticks in which none ran, and those of lines that are gone;
/// R105: the slot that got the last tick.
#[derive(Clone, Copy, Debug, PartialEq, Eq)]
pub struct Pump {
    pub clock: u64,
    pub slots: [Held; SLOTS],
    pub had: [u64; SLOTS],
    pub idle: u64,
    pub departed: u64,
    pub last: u8,
}

/// R6: the request.
#[derive(Clone, Copy, Debug, PartialEq, Eq)]
pub struct Request {
    pub stretched: [u16; SLOTS],
    pub need: u16,
    pub period: u16,
}

impl Held {
    /// R5: whether the line's numbers fit together.
    #[inline]
    pub(crate) fn sound(self) -> bool {
        match self {
            Held::Nothing => true,
            Held::Running {
                need,
                period,
                age,
                remaining,
                ..
            } => 1 <= need && need <= period && remaining <= need && age < period,
            Held::Waiting { need, period, wait } => 1 <= need && need <= period && 1 <= wait,
        }
    }

    /// R44: ticks to the end of the period of a line that is owed a tick.
    #[inline]
    fn left(self) -> u32 {
        match self {
            Held::Running {
                period,
                age,
                remaining,
                ..
            } if remaining > 0 => u32::from(period) - u32::from(age),
            _ => NOT_OWED,
        }
    }

    /// R45 to R47, after the tick was given.
    #[inline]
    fn passed(self) -> Held {
        match self {
            Held::Nothing => self,
            Held::Running {
                need,
                period,
                age,
                remaining,
                leaves,
            } if age + 1 < period => Held::Running {
                need,
                period,
                age: age + 1,
                remaining,
                leaves,
            },
            Held::Running { leaves: true, .. } => Held::Nothing,
            Held::Waiting { need, period, wait } if wait > 1 => Held::Waiting {
                need,
                period,
                wait: wait - 1,
            },
            Held::Running { need, period, .. } | Held::Waiting { need, period, .. } => {
                Held::Running {
                    need,
                    period,
                    age: 0,
                    remaining: need,
                    leaves: false,
                }
            }
        }
    }
}

impl Pump {
    /// R4, R56: a table of this clock, with nothing in any slot, nothing counted and no last slot.
    #[inline]
    pub(crate) fn new(clock: u64) -> Pump {
        Pump {
            clock,
            slots: [Held::Nothing; SLOTS],
            had: [0; SLOTS],
            idle: 0,
            departed: 0,
            last: NONE,
        }
    }

    /// R96: the counts add up to more than the clock. Where none reaches 2^59 eighteen of them stay within 64 bits.
    #[inline]
    pub(crate) fn overcounted(&self) -> bool {
        let others = self.idle | self.departed;
        let bits = self.had.iter().fold(others, |bits, n| bits | n);
        if bits >= 1 << 59 {
            return self.wide_sum() > u128::from(self.clock);
        }
        self.had.iter().sum::<u64>() + self.idle + self.departed > self.clock
    }

    #[cold]
    fn wide_sum(&self) -> u128 {
        let had: u128 = self.had.iter().map(|n| u128::from(*n)).sum();
        had + u128::from(self.idle) + u128::from(self.departed)
    }

    /// R101: what the lines of these slots had, a bit for each, is had by lines that are gone. R105: none of them goes on.
    #[cold]
    fn depart(&mut self, gone: u16) {
        for (i, had) in self.had.iter_mut().enumerate() {
            if gone >> i & 1 == 1 {
                self.departed += *had;
                *had = 0;
                if usize::from(self.last) == i {
                    self.last = NONE;
                }
            }
        }
    }

    /// R24, then R44: who gets the tick. What is left with its slot below it is one key, so that the lowest slot's is the least.
    #[inline]
    fn chosen(&self) -> Result<Option<usize>, (u16, u64)> {
        let mut key = u32::MAX;
        for (i, held) in self.slots.iter().enumerate() {
            if !held.sound() {
                return Err((4, i as u64));
            }
            key = key.min(held.left() << 4 | i as u32);
        }
        if self.overcounted() {
            return Err((4, 0));
        }
        let (left, lowest) = (key >> 4, key as usize % SLOTS);
        let last = usize::from(self.last);
        let goes_on = self.slots.get(last).is_some_and(|l| l.left() == left);
        let slot = if goes_on { last } else { lowest };
        Ok((left < NOT_OWED).then_some(slot))
    }

    /// R48: one tick; the slot that ran or none, or the refusal's number and place, with the table as it was.
    ///
    /// # Errors
    /// R35, R24 and R34, in that order.
    #[inline]
    pub fn step(&mut self) -> Result<Option<usize>, (u16, u64)> {
        if self.clock >= 1 << 48 {
            return Err((15, 0));
        }
        let ran = self.chosen()?;
        let mut gone = 0;
        for (i, held) in self.slots.iter().enumerate() {
            if let Held::Running {
                period,
                age,
                remaining,
                leaves,
                ..
            } = *held
            {
                if age + 1 == period {
                    if remaining > u16::from(ran == Some(i)) {
                        return Err((14, i as u64));
                    }
                    gone |= u16::from(leaves) << i;
                }
            }
        }
        if let Some(Held::Running { remaining, .. }) = ran.map(|i| &mut self.slots[i]) {
            *remaining -= 1;
        }
        for held in &mut self.slots {
            *held = held.passed();
        }
        self.clock += 1;
        match ran {
            Some(i) => self.had[i] += 1,
            None => self.idle += 1,
        }
        self.last = ran.map_or(NONE, |i| i as u8);
        // R101, R105: the tick is counted before.
        if gone != 0 {
            self.depart(gone);
        }
        Ok(ran)
    }
}

#[cfg(test)]
mod tests {
    use super::*;

    /// A line of period 4 and need 1.
    fn line(age: u16, remaining: u16, leaves: bool) -> Held {
        Held::Running {
            need: 1,
            period: 4,
            age,
            remaining,
            leaves,
        }
    }

    /// A line that owes nothing in slot 2, at tick 10.
    fn counted(had: &[(usize, u64)], idle: u64) -> Pump {
        let mut pump = Pump::new(10);
        pump.slots[2] = line(0, 0, false);
        had.iter()
            .for_each(|(slot, ticks)| pump.had[*slot] = *ticks);
        pump.idle = idle;
        pump
    }

    #[test]
    fn counts_up_to_the_clock() {
        for (had, idle) in [(&[(2, 4)][..], 6), (&[], 10), (&[(15, 10)], 0), (&[], 0)] {
            let mut pump = counted(had, idle);
            assert_eq!(pump.step(), Ok(None));
            assert_eq!((pump.clock, pump.idle), (11, idle + 1));
        }
    }

    #[test]
    fn counts_above_the_clock() {
        let sixteen: Vec<(usize, u64)> = (0..SLOTS).map(|slot| (slot, 1 << 60)).collect();
        let below: Vec<(usize, u64)> = (0..SLOTS).map(|slot| (slot, (1 << 59) - 1)).collect();
        for (had, idle) in [
            (&[(2, 4)][..], 7),
            (&[], 11),
            (&[(15, 11)], 0),
            (&[(0, 1 << 63), (1, 1 << 63)], 0),
            (&[(3, u64::MAX)], 1),
            (&sixteen, 0),
            (&below, (1 << 59) - 1),
        ] {
            let before = counted(had, idle);
            let mut pump = before;
            assert_eq!(pump.step(), Err((4, 0)));
            // R96: the departed count is one of them.
            (pump.idle, pump.departed) = (0, idle);
            assert_eq!(pump.step(), Err((4, 0)));
            (pump.idle, pump.departed) = (idle, 0);
            pump.slots[2] = Held::Waiting {
                need: 1,
                period: 4,
                wait: 0,
            };
            // R24: the line before the counts.
            assert_eq!(pump.step(), Err((4, 2)));
            assert_eq!((pump.had, pump.idle), (before.had, before.idle));
        }
    }

    #[test]
    fn a_tick_is_counted() {
        let mut pump = counted(&[(2, 4)], 5);
        pump.slots[2] = line(0, 1, false);
        assert_eq!((pump.step(), pump.had[2], pump.idle), (Ok(Some(2)), 5, 5));
    }

    /// R46, R101: two lines go with one tick, one of them with its last; the count of an empty slot stays.
    #[test]
    fn lines_that_leave() {
        let mut pump = counted(&[(2, 1), (3, 2), (7, 1), (9, 1)], 3);
        pump.slots[2] = line(3, 1, true);
        (pump.slots[3], pump.slots[7]) = (line(3, 0, false), line(3, 0, true));
        assert_eq!(pump.step(), Ok(Some(2)));
        let mut wanted = counted(&[(3, 2), (9, 1)], 3);
        (wanted.clock, wanted.departed) = (11, 3);
        (wanted.slots[2], wanted.slots[3]) = (Held::Nothing, line(0, 1, false));
        assert_eq!(pump, wanted);
        pump.slots[3] = line(2, 1, true);
        assert_eq!(
            (pump.step(), pump.slots[3]),
            (Ok(Some(3)), line(3, 0, true))
        );
        pump.slots[5] = line(3, 1, true);
        pump.slots[3] = line(3, 1, true);
        assert_eq!(pump.step(), Err((14, 5)));
    }

    /// R44: the line that ran goes on, else the lowest slot's. One that ends later, is owed nothing or is not there is not looked at.
    #[test]
    fn who_ran_goes_on() {
        let ends_together = [2, 5, 9];
        for last in 0..=255 {
            let mut pump = Pump::new(10);
            (pump.slots[0], pump.slots[7]) = (line(1, 1, false), line(2, 0, false));
            for slot in ends_together {
                pump.slots[usize::from(slot)] = line(2, 1, slot == 5);
            }
            pump.last = last;
            let goes_on = ends_together.contains(&last);
            let ran = if goes_on { last } else { 2 };
            assert_eq!(pump.step(), Ok(Some(ran.into())));
            assert_eq!(pump.last, ran);
        }
    }

    /// R44: the whole of the longest period is left, and in the highest slot.
    #[test]
    fn the_longest_period() {
        let mut pump = Pump::new(10);
        pump.slots[15] = Held::Running {
            need: 1,
            period: u16::MAX,
            age: 0,
            remaining: 1,
            leaves: false,
        };
        assert_eq!(pump.step(), Ok(Some(15)));
    }

    /// A tick of these lines in slots 3 and 4, slot 3 having got the last one, and what the last slot is then.
    fn tick(lines: [Held; 2]) -> (Result<Option<usize>, (u16, u64)>, u8) {
        let mut pump = Pump::new(10);
        pump.slots[3..5].copy_from_slice(&lines);
        pump.last = 3;
        (pump.step(), pump.last)
    }

    /// R105: an idle tick, the end of a period, lines that go with their last tick and without, and a refused step.
    #[test]
    fn the_last_slot() {
        let idle = line(0, 0, false);
        let (renews, leaves) = (line(3, 1, false), line(3, 1, true));
        let gone = line(3, 0, true);
        assert_eq!(tick([idle, idle]), (Ok(None), NONE));
        assert_eq!(tick([renews, idle]), (Ok(Some(3)), 3));
        assert_eq!(tick([leaves, idle]), (Ok(Some(3)), NONE));
        assert_eq!(tick([gone, idle]), (Ok(None), NONE));
        assert_eq!(tick([gone, renews]), (Ok(Some(4)), 4));
        assert_eq!(tick([renews, gone]), (Ok(Some(3)), 3));
        assert_eq!(tick([renews, leaves]), (Err((14, 4)), 3));
    }
}
