//! The image of a table, read (R83), stepped (R88), looked at (R89) and written (R84).

use crate::pump::{Held, Pump};

/// R81: bytes of an image, of a slot and of a count, and where slot 0, its count, the idle count, the departed one and the last slot
/// stand.
const LENGTH: usize = 298;
const SLOT: usize = 9;
const COUNT: usize = 8;
const FIRST: usize = 9;
const HAD: usize = 153;
const IDLE: usize = 281;
const DEPARTED: usize = 289;
const LAST: usize = 297;

/// R81: the version.
const VERSION: u8 = 4;

/// R81: what the nine bytes of a slot hold, or the first of them that is wrong.
#[inline]
fn held(slot: &[u8]) -> Result<Held, usize> {
    let two = |at: usize| u16::from_le_bytes([slot[at], slot[at + 1]]);
    let blank = |from: usize| match slot[from..].iter().position(|byte| *byte != 0) {
        Some(at) => Err(from + at),
        None => Ok(()),
    };
    let (need, period) = (two(1), two(3));
    match slot[0] {
        0 => blank(1).map(|()| Held::Nothing),
        kind @ (1 | 3) => Ok(Held::Running {
            need,
            period,
            age: two(5),
            remaining: two(7),
            leaves: kind == 3,
        }),
        2 => blank(7).map(|()| Held::Waiting {
            need,
            period,
            wait: two(5),
        }),
        _ => Err(0),
    }
}

/// R83: the refusal of bytes whose length is not 298. With zeros for what is missing, nothing is wrong behind what is there.
#[cold]
fn wrong_length(image: &[u8]) -> (u16, u64) {
    let there = image.len().min(LENGTH);
    let mut whole = [0; LENGTH];
    whole[0] = VERSION;
    whole[..there].copy_from_slice(&image[..there]);
    let wrong = read_whole(&whole, &mut Pump::new(0)).err();
    wrong.unwrap_or((11, there as u64))
}

/// R81: the number in eight bytes.
#[inline]
fn eight(bytes: &[u8]) -> u64 {
    let mut number = [0; 8];
    number.copy_from_slice(bytes);
    u64::from_le_bytes(number)
}

/// Fills the table where it stands: handed out by value it is copied twice.
#[inline]
fn read_whole(image: &[u8; LENGTH], pump: &mut Pump) -> Result<(), (u16, u64)> {
    if image[0] != VERSION {
        return Err((11, 0));
    }
    pump.clock = eight(&image[1..FIRST]);
    let slots = image[FIRST..HAD].chunks_exact(SLOT);
    for (k, (place, slot)) in pump.slots.iter_mut().zip(slots).enumerate() {
        *place = held(slot).map_err(|at| (11, (FIRST + SLOT * k + at) as u64))?;
    }
    let had = image[HAD..IDLE].chunks_exact(COUNT);
    for (place, count) in pump.had.iter_mut().zip(had) {
        *place = eight(count);
    }
    pump.idle = eight(&image[IDLE..DEPARTED]);
    pump.departed = eight(&image[DEPARTED..LAST]);
    pump.last = image[LAST];
    Ok(())
}

/// R84: the table of an image.
///
/// # Errors
/// R31, 11 with the byte offset.
#[inline]
fn read_image(image: &[u8], pump: &mut Pump) -> Result<(), (u16, u64)> {
    match image.try_into() {
        Ok(whole) => read_whole(whole, pump),
        Err(_) => Err(wrong_length(image)),
    }
}

/// R84: writes the image.
#[inline]
fn write_image(pump: &Pump, image: &mut [u8; LENGTH]) {
    image[0] = VERSION;
    image[1..FIRST].copy_from_slice(&pump.clock.to_le_bytes());
    let had = image[HAD..IDLE].chunks_exact_mut(COUNT);
    for (count, place) in pump.had.iter().zip(had) {
        place.copy_from_slice(&count.to_le_bytes());
    }
    image[IDLE..DEPARTED].copy_from_slice(&pump.idle.to_le_bytes());
    image[DEPARTED..LAST].copy_from_slice(&pump.departed.to_le_bytes());
    image[LAST] = pump.last;
    let slots = image[FIRST..HAD].chunks_exact_mut(SLOT);
    for (held, slot) in pump.slots.iter().zip(slots) {
        let (kind, numbers) = match *held {
            Held::Nothing => (0, [0; 4]),
            Held::Running {
                need,
                period,
                age,
                remaining,
                leaves,
            } => (1 + 2 * u8::from(leaves), [need, period, age, remaining]),
            Held::Waiting { need, period, wait } => (2, [need, period, wait, 0]),
        };
        slot[0] = kind;
        for (k, number) in numbers.into_iter().enumerate() {
            slot[1 + 2 * k..3 + 2 * k].copy_from_slice(&number.to_le_bytes());
        }
    }
}

/// R88: reads the image, steps its table and writes the next one's.
///
/// # Errors
/// R31, R35, R24 and R34, in that order; then no byte is written.
#[inline]
pub fn step_image(image: &mut [u8]) -> Result<Option<usize>, (u16, u64)> {
    let mut pump = Pump::new(0);
    read_image(image, &mut pump)?;
    let ran = pump.step()?;
    if let Ok(whole) = image.try_into() {
        write_image(&pump, whole);
    }
    Ok(ran)
}

/// R89: the ready word of the image's table.
///
/// # Errors
/// R31, 11 with the byte offset.
#[inline]
pub fn ready_image(image: &[u8]) -> Result<u16, (u16, u64)> {
    let mut pump = Pump::new(0);
    read_image(image, &mut pump)?;
    let owed = |held: &Held| matches!(held, Held::Running { remaining, .. } if *remaining > 0);
    let bits = pump.slots.iter().enumerate();
    Ok(bits.fold(0, |word, (k, held)| word | u16::from(owed(held)) << k))
}

#[cfg(test)]
mod tests {
    use super::*;

    /// A line that runs in slot 0, one that waits in slot 15, and at tick 3 a tick of slot 0's line and then two idle ones.
    fn image() -> [u8; LENGTH] {
        let mut image = [0; LENGTH];
        (image[0], image[1], image[153], image[281], image[297]) = (4, 3, 1, 2, 255);
        image[9..18].copy_from_slice(&[1, 2, 0, 4, 0, 1, 0, 2, 0]);
        image[144..153].copy_from_slice(&[2, 1, 0, 4, 0, 1, 0, 0, 0]);
        image
    }

    #[test]
    fn a_step_reads_and_writes() {
        let mut stepped = image();
        assert_eq!(ready_image(&stepped), Ok(1));
        assert_eq!(step_image(&mut stepped), Ok(Some(0)));
        let mut wanted = image();
        (wanted[1], wanted[153], wanted[297]) = (4, 2, 0);
        wanted[9..18].copy_from_slice(&[1, 2, 0, 4, 0, 2, 0, 1, 0]);
        wanted[144..153].copy_from_slice(&[1, 1, 0, 4, 0, 0, 0, 1, 0]);
        assert_eq!(stepped, wanted);
        assert_eq!(ready_image(&stepped), Ok(0x8001));
    }

    /// R46, R101: a line that leaves is gone with its last tick, and what it had stands last.
    #[test]
    fn a_line_that_leaves_reads_and_goes() {
        let mut stepped = image();
        stepped[9..18].copy_from_slice(&[3, 2, 0, 4, 0, 2, 0, 1, 0]);
        assert_eq!(ready_image(&stepped), Ok(1));
        assert_eq!(step_image(&mut stepped), Ok(Some(0)));
        assert_eq!(stepped[9..18], [3, 2, 0, 4, 0, 3, 0, 0, 0]);
        assert_eq!(step_image(&mut stepped), Ok(Some(15)));
        let mut wanted = image();
        (wanted[1], wanted[153], wanted[273], wanted[289]) = (5, 0, 1, 2);
        wanted[297] = 15;
        wanted[9..18].fill(0);
        wanted[144..153].copy_from_slice(&[1, 1, 0, 4, 0, 1, 0, 0, 0]);
        assert_eq!(stepped, wanted);
    }

    #[test]
    fn counts_of_any_place() {
        for place in 0..18 {
            let mut counted = image();
            counted[1..9].fill(0);
            counted[153..297].fill(0);
            // R96: 255 × 256^6 is above the clock of 0; the ready word is told all the same.
            counted[153 + 8 * place + 6] = 255;
            assert_eq!(step_image(&mut counted), Err((4, 0)));
            assert_eq!(ready_image(&counted), Ok(1));
        }
    }

    #[test]
    fn the_first_fault() {
        for (offset, byte) in [
            (0, 3),
            (0, 5),
            (18, 4),
            (19, 1),
            (26, 9),
            (144, 4),
            (151, 1),
            (152, 1),
        ] {
            let mut broken = image().to_vec();
            broken[offset] = byte;
            broken.push(0);
            for length in 0..=299 {
                let wanted = Err((11, offset.min(length) as u64));
                assert_eq!(step_image(&mut broken[..length]), wanted);
            }
        }
        assert_eq!(ready_image(&image()[..297]), Err((11, 297)));
        assert_eq!(ready_image(&[&image()[..], &[0]].concat()), Err((11, 298)));
    }

    /// R44, R105: any last slot is read, and the one that got the tick is written.
    #[test]
    fn who_ran_goes_on() {
        for last in 0..=255 {
            let mut tied = image();
            tied[144..153].copy_from_slice(&[1, 1, 0, 4, 0, 1, 0, 1, 0]);
            tied[297] = last;
            let ran = if last == 15 { 15 } else { 0 };
            assert_eq!(ready_image(&tied), Ok(0x8001));
            assert_eq!(step_image(&mut tied), Ok(Some(ran)));
            assert_eq!(usize::from(tied[297]), ran);
        }
    }
}
