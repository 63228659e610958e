//! The card, read (R52 to R58) and written (R59).

use crate::pump::{Held, Pump, Request, SLOTS};

/// R52: a number of two bytes.
#[inline]
fn two(card: &[u8], at: usize) -> u16 {
    u16::from_le_bytes([card[at], card[at + 1]])
}

/// R56, R58: the table and request of a card, and a bit for each slot whose record is TA.
///
/// # Errors
/// R31, 11 with the byte offset.
#[inline]
pub fn read(card: &[u8]) -> Result<(Pump, Request, u16), (u16, u64)> {
    let Some(Ok(clock)) = card.get(2..10).map(<[u8; 8]>::try_from) else {
        return Err((11, 0));
    };
    if !card.starts_with(b"CK") {
        return Err((11, 0));
    }
    let mut pump = Pump::new(u64::from_le_bytes(clock));
    let mut request = Request {
        stretched: [0; SLOTS],
        need: 0,
        period: 0,
    };
    let (mut at, mut slot, mut gap, mut turned) = (10, 0, false, 0);
    loop {
        let rest = &card[at..];
        if rest.starts_with(b"RQ") {
            if rest.len() < 6 || gap {
                return Err((11, at as u64));
            }
            if rest.len() > 6 {
                return Err((11, at as u64 + 6));
            }
            (request.need, request.period) = (two(rest, 2), two(rest, 4));
            return Ok((pump, request, turned));
        }
        let (old, leaves) = (rest.starts_with(b"TA"), rest.starts_with(b"TL"));
        if slot < SLOTS && (old || leaves || rest.starts_with(b"TB")) && rest.len() >= 12 {
            let (age, remaining) = if old { (10, 8) } else { (8, 10) };
            pump.slots[slot] = Held::Running {
                need: two(rest, 2),
                period: two(rest, 4),
                age: two(rest, age),
                remaining: two(rest, remaining),
                leaves,
            };
            turned |= u16::from(old) << slot;
            request.stretched[slot] = two(rest, 6);
            (at, slot, gap) = (at + 12, slot + 1, false);
        } else if slot < SLOTS && rest.starts_with(b"TF") {
            (at, slot, gap) = (at + 2, slot + 1, true);
        } else {
            return Err((11, at as u64));
        }
    }
}

/// R59: writes the card and gives its length.
///
/// # Errors
/// R23 and R33, 3 and 13; then no byte is written.
#[inline]
pub fn write(pump: &Pump, request: &Request, out: &mut [u8]) -> Result<usize, (u16, u64)> {
    let (mut used, mut length) = (0, 16);
    for (i, held) in pump.slots.iter().enumerate() {
        match held {
            Held::Nothing => {}
            Held::Running { .. } => {
                length += 12 + 2 * (i - used);
                used = i + 1;
            }
            Held::Waiting { .. } => return Err((3, i as u64)),
        }
    }
    if out.len() < length {
        return Err((13, 0));
    }
    out[..2].copy_from_slice(b"CK");
    out[2..10].copy_from_slice(&pump.clock.to_le_bytes());
    let mut at = 10;
    for (held, stretched) in pump.slots[..used].iter().zip(&request.stretched) {
        if let Held::Running {
            need,
            period,
            age,
            remaining,
            leaves,
        } = held
        {
            out[at..at + 2].copy_from_slice(if *leaves { b"TL" } else { b"TB" });
            for (k, v) in [need, period, stretched, age, remaining]
                .into_iter()
                .enumerate()
            {
                out[at + 2 + 2 * k..at + 4 + 2 * k].copy_from_slice(&v.to_le_bytes());
            }
            at += 12;
        } else {
            out[at..at + 2].copy_from_slice(b"TF");
            at += 2;
        }
    }
    out[at..at + 2].copy_from_slice(b"RQ");
    out[at + 2..at + 4].copy_from_slice(&request.need.to_le_bytes());
    out[at + 4..at + 6].copy_from_slice(&request.period.to_le_bytes());
    Ok(length)
}

#[cfg(test)]
mod tests {
    use super::*;

    const NEW: &[u8] = b"CK\x08\0\0\0\0\0\0\0TB\x08\0\x10\0\x20\0\x08\0\x03\0TB\x08\0\x10\0\x10\0\x08\0\x08\0RQ\x01\0\x04\0";
    const OLD: &[u8] = b"CK\x08\0\0\0\0\0\0\0TB\x08\0\x10\0\x20\0\x08\0\x03\0TA\x08\0\x10\0\x10\0\x08\0\x08\0RQ\x01\0\x04\0";

    /// R65, R72: a card, rewritten, and the word of its slots.
    fn rewritten(card: &[u8]) -> (Vec<u8>, u16) {
        let (pump, request, turned) = read(card).unwrap_or_else(|_| unreachable!());
        let mut out = vec![0; card.len()];
        assert_eq!(write(&pump, &request, &mut out), Ok(card.len()));
        (out, turned)
    }

    #[test]
    fn reads_either_order() {
        let mut both = OLD.to_vec();
        both[11] = b'A';
        both.swap(18, 20);
        assert_eq!(rewritten(NEW), (NEW.to_vec(), 0));
        assert_eq!(rewritten(OLD), (NEW.to_vec(), 2));
        assert_eq!(rewritten(&both), (NEW.to_vec(), 3));
        assert_eq!(read(&OLD[..33]).err(), Some((11, 22)));
    }

    /// R53, R72: TL is laid out as TB, and stands as it is.
    #[test]
    fn reads_lines_that_leave() {
        let mut leaving = OLD.to_vec();
        leaving[11] = b'L';
        let mut twin = NEW.to_vec();
        twin[11] = b'L';
        assert_eq!(rewritten(&leaving), (twin.clone(), 2));
        assert_eq!(rewritten(&twin), (twin.clone(), 0));
        let (pump, ..) = read(&leaving).unwrap_or_else(|_| unreachable!());
        let kinds = pump
            .slots
            .map(|held| matches!(held, Held::Running { leaves, .. } if leaves));
        assert_eq!(kinds[..3], [true, false, false]);
        assert_eq!(read(&twin[..21]).err(), Some((11, 10)));
    }
}
