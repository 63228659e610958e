//! Ask (R41) by one pass through the ends in time order: the demand is carried along, and nothing is divided where the start cannot rise.
//!
//! An end d with demand D and slack s = d − D puts the bound D − (⌊s / need⌋ + 1) × gap on the start, counted from the clock (R14; gap is the new
//! line's period less its need). It is at most D − (s + 1) / need × gap, so that it is above the best so far only where
//! need × best + (d + 1) × gap − D × period, here called the margin, is below 0. So it is too where s is below 0 (R30).
//!
//! A tick between two ends puts a lower bound than the end before it: to look at it changes nothing.

use crate::ask::{from_clock, tested, Line};
use crate::card::read;
use crate::pump::SLOTS;

#[cfg(test)]
mod tests;

/// R14: the greatest bound so far, and what it is made of.
struct Bound {
    need: u32,
    gap: u32,
    best: u32,
}

impl Bound {
    /// Below 0 wherever the end may raise the bound or have no slack.
    #[inline]
    fn margin(&self, d: u32, demand: u32) -> i64 {
        let [need, gap, best] = [self.need, self.gap, self.best].map(i64::from);
        need * best + (i64::from(d) + 1) * gap - i64::from(demand) * (need + gap)
    }

    /// R14: takes the end in; `None` for R30. Seldom called, so kept out of the passes' loops.
    #[inline(never)]
    fn raise(&mut self, d: u32, demand: u32) -> Option<()> {
        let slack = d.checked_sub(demand)?;
        self.best = self
            .best
            .max(demand.saturating_sub((slack / self.need + 1) * self.gap));
        Some(())
    }
}

/// The least of N numbers, N a power of two, by halves: fewer steps wait for each other.
#[inline]
fn least<const N: usize>(mut of: [i32; N]) -> i32 {
    let mut width = N;
    while width > 1 {
        width /= 2;
        for i in 0..width {
            of[i] = of[i].min(of[i + width]);
        }
    }
    of[0]
}

/// Up to N lines, N small: all whose end is the soonest move on at once, without a branch.
fn few<const N: usize>(lines: &[Line], last: u32, mut bound: Bound) -> Option<u32> {
    let (mut next, mut owed, mut need, mut period) = ([i32::MAX; N], [0; N], [0; N], [0; N]);
    for (i, l) in lines.iter().enumerate() {
        (next[i], owed[i], need[i], period[i]) = (
            l.end as i32,
            l.remaining as i32,
            l.need as i32,
            l.period as i32,
        );
    }
    let mut demand = 0;
    loop {
        let d = least(next);
        if d >= last as i32 {
            return Some(bound.best);
        }
        for i in 0..N {
            let hit = -i32::from(next[i] == d);
            demand += hit & owed[i];
            owed[i] = (hit & need[i]) | (!hit & owed[i]);
            next[i] += hit & period[i];
        }
        if bound.margin(d as u32, demand as u32) < 0 {
            bound.raise(d as u32, demand as u32)?;
        }
    }
}

/// More lines: the soonest end with its line's number below it is one key, and one line moves on at a time.
fn many(lines: &[Line], last: u32, mut bound: Bound) -> Option<u32> {
    let (mut keys, mut owed) = ([u32::MAX; SLOTS], [0; SLOTS]);
    for (i, l) in lines.iter().enumerate() {
        (keys[i], owed[i]) = (l.end << 4 | i as u32, l.remaining);
    }
    let mut demand = 0;
    loop {
        let key = keys.iter().copied().fold(u32::MAX, u32::min);
        let (d, i) = (key >> 4, key as usize % SLOTS);
        if d >= last {
            return Some(bound.best);
        }
        demand += owed[i];
        owed[i] = lines[i].need;
        keys[i] += lines[i].period << 4;
        if bound.margin(d, demand) < 0 {
            bound.raise(d, demand)?;
        }
    }
}

/// Ticks that `dense` takes at once.
const SEGMENT: usize = 256;

/// Ends close together: what each tick of a segment does to the margin is gathered line by line, and then summed tick by tick.
fn dense(lines: &[Line], last: u32, mut bound: Bound) -> Option<u32> {
    let gap = i64::from(bound.gap);
    let period = i64::from(bound.need) + gap;
    let mut next = [0; SLOTS];
    next.iter_mut().zip(lines).for_each(|(n, l)| *n = l.end);
    let mut margin = 0;
    for base in (0..last).step_by(SEGMENT) {
        let mut steps = [gap; SEGMENT];
        for (n, l) in next.iter_mut().zip(lines) {
            // R10: the first end brings what remains, each later one the need.
            if let Some(step) = steps.get_mut(l.end.wrapping_sub(base) as usize) {
                *step += (i64::from(l.need) - i64::from(l.remaining)) * period;
            }
            let taken = i64::from(l.need) * period;
            let mut k = (*n - base) as usize;
            while k < SEGMENT {
                steps[k] -= taken;
                k += l.period as usize;
            }
            *n = base + k as u32;
        }
        margin = through(
            &steps[..SEGMENT.min((last - base) as usize)],
            base,
            margin,
            &mut bound,
        )?;
    }
    Some(bound.best)
}

/// One segment, from the margin before it to the margin after it.
#[inline]
fn through(steps: &[i64], base: u32, before: i64, bound: &mut Bound) -> Option<i64> {
    let (mut margin, mut signs) = (before, 0);
    for step in steps {
        margin += step;
        signs |= margin;
    }
    if signs < 0 {
        return looked_at(steps, base, before, bound);
    }
    Some(margin)
}

/// A segment in which the margin falls below 0, end by end.
#[inline(never)]
fn looked_at(steps: &[i64], base: u32, mut margin: i64, bound: &mut Bound) -> Option<i64> {
    for (d, step) in (base..).zip(steps) {
        margin += step;
        if margin < 0 && *step != i64::from(bound.gap) {
            let demand = (bound.margin(d, 0) - margin) / i64::from(bound.need + bound.gap);
            let best = bound.best;
            bound.raise(d, demand as u32)?;
            margin += i64::from(bound.need) * i64::from(bound.best - best);
        }
    }
    Some(margin)
}

/// R14: ticks from the clock to the least smooth start, or `None` for R30. Lines that first end at the last end have no end before it.
#[inline]
fn start(lines: &[Line], need: u32, period: u32) -> Option<u32> {
    let last = lines.iter().map(|l| l.end).max().unwrap_or(0);
    let (mut early, mut count, mut ends_a_tick) = ([Line::default(); SLOTS], 0, 0.0);
    for line in lines.iter().filter(|l| l.end < last) {
        early[count] = *line;
        count += 1;
        ends_a_tick += 1.0 / line.period as f32;
    }
    let early = &early[..count];
    let bound = Bound {
        need,
        gap: period - need,
        best: 0,
    };
    // The limits are worked out from the times that an end and a tick took in each way; they were not searched for.
    match count {
        0..=1 => few::<1>(early, last, bound),
        2 if ends_a_tick < 0.2 => few::<2>(early, last, bound),
        3..=4 if ends_a_tick < 0.2 => few::<4>(early, last, bound),
        5.. if ends_a_tick < 0.06 => many(early, last, bound),
        _ => dense(early, last, bound),
    }
}

/// R60: the answer to a card, as `answer` gives it.
///
/// # Errors
/// The refusal's number and place.
#[inline]
pub fn answer_in_order(card: &[u8]) -> Result<u64, (u16, u64)> {
    let (pump, request, _) = read(card)?;
    let (lines, count) = tested(&pump, &request)?;
    let (need, period) = (request.need.into(), request.period.into());
    from_clock(&pump, start(&lines[..count], need, period))
}
