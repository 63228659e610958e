//! Ask (R41): the tests in their order (R18), and the greatest bound that the ends put on the start (R14).

use crate::card::read;
use crate::pump::{Held, Pump, Request, SLOTS};

/// R9, R10: a running line at its stretched period, its first end counted from the clock; the need is what each later end brings.
#[derive(Clone, Copy, Default)]
pub(crate) struct Line {
    pub(crate) end: u32,
    pub(crate) remaining: u32,
    pub(crate) need: u32,
    pub(crate) period: u32,
}

/// R14: ticks from the clock to the least smooth start, or `None` for R30. The lines go on from end to end in time order, and the demand is carried along.
/// With q whole needs in the slack at an end, q + 1 of the new line's periods must not be over before that many needs and the demand fit.
#[inline]
fn start(lines: &[Line], need: u32, period: u32) -> Option<u32> {
    let last = lines.iter().map(|l| l.end).max().unwrap_or(0);
    let mut ahead = [Line::default(); SLOTS];
    let ahead = &mut ahead[..lines.len()];
    ahead.copy_from_slice(lines);
    let mut d = lines.iter().map(|l| l.end).min().unwrap_or(last);
    let (mut best, mut demand) = (0, 0);
    while d < last {
        let mut soonest = last;
        for line in ahead.iter_mut() {
            if line.end == d {
                demand += line.remaining;
                line.remaining = line.need;
                line.end += line.period;
            }
            soonest = soonest.min(line.end);
        }
        let slack = d.checked_sub(demand)?;
        best = best.max(demand.saturating_sub((slack / need + 1) * (period - need)));
        d = soonest;
    }
    Some(best)
}

/// R8: the frame, or `None` above its limit.
#[inline]
fn frame(lines: &[Line], period: u32) -> Option<u64> {
    let mut m = u64::from(period);
    for line in lines {
        let p = u64::from(line.period);
        let (mut a, mut b) = (m, p);
        while b != 0 {
            (a, b) = (b, a % b);
        }
        m = m / a * p;
        if m > 1_000_000 {
            return None;
        }
    }
    Some(m)
}

/// R27 to R29, exact as in R16.
#[inline]
fn load(lines: &[Line], need: u32, period: u32) -> Result<(), u16> {
    let frame = frame(lines, period).ok_or(7u16)?;
    let share = |n: u32, p: u32| u64::from(n) * (frame / u64::from(p));
    if lines.iter().map(|l| share(l.need, l.period)).sum::<u64>() + share(need, period) > frame {
        return Err(8);
    }
    let owed: u64 = lines
        .iter()
        .map(|l| {
            frame * u64::from(l.remaining) + share(l.need, l.period) * u64::from(l.period - l.end)
        })
        .sum();
    if owed > lines.iter().map(|l| frame * u64::from(l.need)).sum() {
        return Err(9);
    }
    Ok(())
}

/// R19: the lowest slot of which the test holds.
#[inline]
fn lowest(pump: &Pump, test: impl Fn(usize, Held) -> bool) -> Option<u64> {
    pump.slots
        .iter()
        .enumerate()
        .find(|(i, h)| test(*i, **h))
        .map(|(i, _)| i as u64)
}

/// The running lines at their stretched periods, and how many there are.
pub(crate) type Lines = ([Line; SLOTS], usize);

/// R21 to R29 in that order, and the lines gathered. R10: of a line that leaves later ends bring nothing, which is as good as if there were none.
#[inline]
pub(crate) fn tested(pump: &Pump, request: &Request) -> Result<Lines, (u16, u64)> {
    if pump.clock > (1 << 48) - 65_536 {
        return Err((1, 0));
    }
    if !pump.slots.contains(&Held::Nothing) {
        return Err((2, 0));
    }
    let misfit = |i: usize, h: Held| match h {
        Held::Running { period, leaves, .. } => {
            request.stretched[i] < period || leaves && request.stretched[i] > period
        }
        _ => false,
    };
    let unsound = || lowest(pump, |_, h| !h.sound());
    let found = [
        (3, lowest(pump, |_, h| matches!(h, Held::Waiting { .. }))),
        (4, unsound().or_else(|| pump.overcounted().then_some(0))),
        (5, lowest(pump, misfit)),
    ];
    if let Some((number, Some(place))) = found.into_iter().find(|(_, k)| k.is_some()) {
        return Err((number, place));
    }
    if request.need < 1 || request.period < request.need {
        return Err((6, 0));
    }
    let mut lines = [Line::default(); SLOTS];
    let (mut count, mut leaving) = (0, 0u16);
    for (held, stretched) in pump.slots.iter().zip(request.stretched) {
        if let Held::Running {
            need,
            age,
            remaining,
            leaves,
            ..
        } = *held
        {
            leaving |= u16::from(leaves) << count;
            let period = u32::from(stretched);
            lines[count] = Line {
                end: period - u32::from(age),
                remaining: u32::from(remaining),
                need: u32::from(need),
                period,
            };
            count += 1;
        }
    }
    load(
        &lines[..count],
        u32::from(request.need),
        u32::from(request.period),
    )
    .map_err(|number| (number, 0))?;
    if leaving != 0 {
        let all = lines.iter_mut().enumerate();
        all.filter(|(i, _)| leaving >> i & 1 == 1)
            .for_each(|(_, line)| line.need = 0);
    }
    Ok((lines, count))
}

/// Whether a card reads and R21 to R29 do not hold.
#[must_use]
#[inline]
pub fn passes(card: &[u8]) -> bool {
    read(card).is_ok_and(|(pump, request, _)| tested(&pump, &request).is_ok())
}

/// R41: the start that is so many ticks from the clock; none is R30.
#[inline]
pub(crate) fn from_clock(pump: &Pump, ticks: Option<u32>) -> Result<u64, (u16, u64)> {
    Ok(pump.clock + u64::from(ticks.ok_or((10, 0))?))
}

/// R41: the start, or the refusal's number and place.
///
/// # Errors
/// R21 to R30.
#[inline]
pub fn ask(pump: &Pump, request: &Request) -> Result<u64, (u16, u64)> {
    let (lines, count) = tested(pump, request)?;
    let (need, period) = (request.need.into(), request.period.into());
    from_clock(pump, start(&lines[..count], need, period))
}

/// R60: the answer to a card, the reader's refusal or ask's.
///
/// # Errors
/// The refusal's number and place.
#[inline]
pub fn answer(card: &[u8]) -> Result<u64, (u16, u64)> {
    let (pump, request, _) = read(card)?;
    ask(&pump, &request)
}

#[cfg(test)]
mod tests {
    use crate::{answer, answer_in_order, read, write};

    /// R59: the card of case A.
    const CASE_A: &[u8] = b"CK\x08\0\0\0\0\0\0\0TB\x08\0\x10\0\x20\0\x08\0\0\0TB\x08\0\x10\0\x10\0\x08\0\x08\0RQ\x01\0\x04\0";

    #[test]
    fn case_a() {
        assert_eq!(answer(CASE_A), Ok(13));
        let (pump, request, _) = read(CASE_A).unwrap_or_else(|_| unreachable!());
        let mut out = [0; 208];
        assert_eq!(write(&pump, &request, &mut out), Ok(40));
        assert_eq!(&out[..40], CASE_A);
    }

    /// R67: the card of case E, its first line leaving; and one whose first line's ticks are wanted after it is gone.
    const CASE_E: &[u8] = b"CK\x28\0\0\0\0\0\0\0TL\x01\0\x04\0\x04\0\0\0\x01\0TB\x10\0\x40\0\x40\0\x34\0\x08\0TB\x10\0\x20\0\x40\0\x0C\0\0\0RQ\x01\0\x04\0";
    const OWED: &[u8] = b"CK\0\0\0\0\0\0\0\0TL\x02\0\x08\0\x08\0\x06\0\x02\0TB\x02\0\x08\0\x08\0\x04\0\x02\0TB\x04\0\x10\0\x10\0\0\0\0\0RQ\x01\0\x04\0";

    /// A card with another byte at an offset, answered by every way.
    fn answered(card: &[u8], at: usize, byte: u8) -> Result<u64, (u16, u64)> {
        let mut card = card.to_vec();
        card[at] = byte;
        assert_eq!(answer(&card), answer_in_order(&card));
        answer(&card)
    }

    #[test]
    fn lines_that_leave() {
        assert_eq!(answered(CASE_E, 11, b'L'), Ok(40));
        assert_eq!(answered(CASE_E, 11, b'B'), Ok(45));
        assert_eq!(answered(OWED, 11, b'L'), Ok(1));
        // R25: another T', and the lowest slot of both breaches.
        for stretched in [0, 3, 5, 8] {
            assert_eq!(answered(CASE_E, 16, stretched), Err((5, 0)));
        }
        assert_eq!(answered(CASE_E, 35, b'L'), Err((5, 2)));
        assert_eq!(answered(CASE_E, 28, 63), Err((5, 1)));
        // R30: with an age of 7 the first line wants 2 ticks by 1.
        assert_eq!(answered(OWED, 18, 7), Err((10, 0)));
    }
}
