//! The image of a table (R81 to R84): judge, reader and writer.

use crate::card;
use crate::types::{Content, Follows, Refusal, Run, Table, Wait, COUNTS, EMPTY, SLOTS};

/// R81: bytes of every image.
pub const LENGTH: usize = 298;

/// R81: the only version there is.
pub const VERSION: u8 = 4;

/// R81: where the clock and slot 0 stand, and the bytes of a slot.
pub const CLOCK: usize = 1;
pub const FIRST_SLOT: usize = 9;
pub const SLOT_LENGTH: usize = 9;

/// R81: where the count of slot 0 stands, behind the last slot, and the bytes of a count.
pub const FIRST_COUNT: usize = 153;
pub const COUNT_LENGTH: usize = 8;

/// R81: where the last slot stands, behind the counts.
pub const LAST: usize = 297;

/// R81: the kinds of a slot.
const NOTHING: u8 = 0;
const RUNNING: u8 = 1;
const WAITING: u8 = 2;
const LEAVING: u8 = 3;

/// R81: where slot k begins.
pub fn slot_at(slot: usize) -> usize {
    FIRST_SLOT + SLOT_LENGTH * slot
}

/// R81: where the count of slot k begins; behind that of slot 15 stand the idle count and the departed one.
pub fn count_at(place: usize) -> usize {
    FIRST_COUNT + COUNT_LENGTH * place
}

/// R81: whether a slot of this kind has a 0 at this of its bytes.
fn is_blank(kind: u8, byte_of_slot: usize) -> bool {
    match kind {
        NOTHING => byte_of_slot >= 1,
        WAITING => byte_of_slot >= 7,
        _ => false,
    }
}

/// R83: whether the byte at this offset, which is there, is wrong.
fn is_wrong(image: &[u8], offset: usize) -> bool {
    let byte = image[offset];
    if offset == 0 {
        return byte != VERSION;
    }
    if !(FIRST_SLOT..FIRST_COUNT).contains(&offset) {
        return false;
    }
    let byte_of_slot = (offset - FIRST_SLOT) % SLOT_LENGTH;
    if byte_of_slot == 0 {
        return byte > LEAVING;
    }
    let kind = image[offset - byte_of_slot];
    is_blank(kind, byte_of_slot) && byte != 0
}

/// R83: the lowest offset at which something is wrong. A byte that is missing, or one behind the last, is a wrong length.
fn fault(image: &[u8]) -> Option<usize> {
    let missing_or_wrong = |offset: &usize| *offset >= image.len() || is_wrong(image, *offset);
    let longer = (image.len() > LENGTH).then_some(LENGTH);
    (0..LENGTH).find(missing_or_wrong).or(longer)
}

/// R81: a number of two bytes, the lowest first.
fn number(image: &[u8], offset: usize) -> u16 {
    u16::from(image[offset]) + 256 * u16::from(image[offset + 1])
}

/// R81: a number of eight bytes, the lowest first.
fn long_number(image: &[u8], offset: usize) -> u64 {
    let bytes = image[offset..offset + 8].iter().rev();
    bytes.fold(0, |number, byte| 256 * number + u64::from(*byte))
}

/// R81: the clock of an image that is long enough to have one.
pub fn clock(image: &[u8]) -> u64 {
    long_number(image, CLOCK)
}

/// R81: a count of an image that is long enough to have it, by its place among the eighteen.
pub fn count(image: &[u8], place: usize) -> u64 {
    long_number(image, count_at(place))
}

/// R81: what a slot of an image that is long enough to have it holds; R83 has let no fifth kind through.
pub fn content(image: &[u8], slot: usize) -> Content {
    let at = slot_at(slot);
    let (need, period) = (number(image, at + 1), number(image, at + 3));
    let running = |follows| {
        Content::Running(Run {
            need,
            period,
            age: number(image, at + 5),
            remaining: number(image, at + 7),
            follows,
        })
    };
    match image[at] {
        NOTHING => Content::Nothing,
        RUNNING => running(Follows::Renews),
        LEAVING => running(Follows::Leaves),
        _ => Content::Waiting(Wait {
            need,
            period,
            wait: number(image, at + 5),
        }),
    }
}

/// R83, R84: the table of an image, whatever its numbers, or refusal 11.
pub fn read(image: &[u8]) -> Result<Table, Refusal> {
    if let Some(offset) = fault(image) {
        return Err(Refusal::at(11, offset));
    }
    let mut table = EMPTY;
    table.clock = clock(image);
    for slot in 0..SLOTS {
        table.slots[slot] = content(image, slot);
    }
    for place in 0..COUNTS {
        *table.counts.at_mut(place) = count(image, place);
    }
    table.last = image[LAST];
    Ok(table)
}

/// R81: the kind and the four numbers of what a slot holds.
fn kind_and_numbers(content: &Content) -> (u8, [u16; 4]) {
    match content {
        Content::Nothing => (NOTHING, [0; 4]),
        Content::Running(run) => {
            let kind = if run.leaves() { LEAVING } else { RUNNING };
            (kind, [run.need, run.period, run.age, run.remaining])
        }
        Content::Waiting(line) => (WAITING, [line.need, line.period, line.wait, 0]),
    }
}

/// R81: the bytes of a slot.
pub fn slot_bytes(content: &Content) -> Vec<u8> {
    let (kind, numbers) = kind_and_numbers(content);
    [&[kind], &numbers.map(u16::to_le_bytes).concat()[..]].concat()
}

/// R81, R82: the one image of a table.
pub fn bytes(table: &Table) -> Vec<u8> {
    let mut image = vec![VERSION];
    image.extend(table.clock.to_le_bytes());
    image.extend(table.slots.iter().flat_map(slot_bytes));
    image.extend(table.counts.all().iter().flat_map(|n| n.to_le_bytes()));
    image.push(table.last);
    image
}

/// R84: the image into a lent buffer, all of it or nothing.
pub fn write(table: &Table, buffer: &mut [u8]) -> Result<usize, Refusal> {
    card::put(&bytes(table), buffer)
}

#[cfg(test)]
mod tests {
    use super::*;
    use crate::cases;
    use crate::draw;
    use crate::draw_counts;
    use crate::draw_last;
    use crate::draw_leaving;
    use crate::random::Random;

    /// Slots of each kind, and no byte of their numbers, of the counts and of the last slot is 0 or, behind the slots, like another.
    fn all_kinds() -> Table {
        let run = |follows| {
            Content::Running(Run {
                need: 0x0201,
                period: 0x0403,
                age: 0x0605,
                remaining: 0x0807,
                follows,
            })
        };
        let wait = Content::Waiting(Wait {
            need: 0x0A09,
            period: 0x0C0B,
            wait: 0x0E0D,
        });
        let mut table = EMPTY;
        table.clock = 0x1817_1615_1413_1211;
        (table.slots[0], table.slots[2]) = (run(Follows::Renews), wait);
        (table.slots[3], table.slots[13]) = (run(Follows::Leaves), run(Follows::Renews));
        (table.slots[14], table.slots[15]) = (wait, run(Follows::Leaves));
        for place in 0..COUNTS {
            let above = 0x0808_0808_0808_0808 * place as u64;
            *table.counts.at_mut(place) = 0x2726_2524_2322_2120 + above;
        }
        table.last = 0xB0;
        table
    }

    fn refused(image: &[u8]) -> Option<usize> {
        let refusal = read(image).err()?;
        assert_eq!(refusal.number, 11);
        Some(refusal.place as usize)
    }

    fn with(image: &[u8], offset: usize, byte: u8) -> Vec<u8> {
        let mut changed = image.to_vec();
        changed[offset] = byte;
        changed
    }

    #[test]
    fn the_layout_byte_by_byte() {
        let mut wanted = vec![
            4, 0x11, 0x12, 0x13, 0x14, 0x15, 0x16, 0x17, 0x18, // version, clock
            1, 1, 2, 3, 4, 5, 6, 7, 8, // slot 0 runs and renews
            0, 0, 0, 0, 0, 0, 0, 0, 0, // slot 1
            2, 9, 10, 11, 12, 13, 14, 0, 0, // slot 2 waits
            3, 1, 2, 3, 4, 5, 6, 7, 8, // slot 3 runs and leaves
        ];
        wanted.extend([0; 9 * 9]);
        wanted.extend([1, 1, 2, 3, 4, 5, 6, 7, 8]);
        wanted.extend([2, 9, 10, 11, 12, 13, 14, 0, 0]);
        wanted.extend([3, 1, 2, 3, 4, 5, 6, 7, 8]);
        assert_eq!(wanted.len(), 153);
        wanted.extend(0x20..0x20 + 18 * 8);
        assert_eq!(wanted.len(), 297);
        wanted.push(0xB0);
        assert_eq!(bytes(&all_kinds()), wanted);
        assert_eq!(read(&wanted), Ok(all_kinds()));
    }

    #[test]
    fn the_empty_table() {
        let mut wanted = [0; 298];
        (wanted[0], wanted[297]) = (4, 255);
        assert_eq!(bytes(&EMPTY), wanted);
        assert_eq!(read(&wanted), Ok(EMPTY));
    }

    #[test]
    fn slot_15_then_idle_then_departed() {
        let [mut last, mut idle, mut departed] = [EMPTY; 3];
        last.counts.had[15] = u64::MAX;
        idle.counts.idle = u64::MAX;
        departed.counts.departed = u64::MAX;
        for (table, at) in [(last, 273), (idle, 281), (departed, 289)] {
            let mut wanted = bytes(&EMPTY);
            wanted[at..at + 8].fill(255);
            assert_eq!(bytes(&table), wanted, "{at}");
        }
    }

    /// R105: each of the 256 values is a last slot.
    #[test]
    fn any_last_slot() {
        let image = bytes(&all_kinds());
        for last in 0..=255 {
            let table = Table {
                last,
                ..all_kinds()
            };
            assert_eq!(read(&with(&image, 297, last)), Ok(table));
            assert_eq!(bytes(&table), with(&image, 297, last));
        }
    }

    #[test]
    fn version_4_alone() {
        let image = bytes(&all_kinds());
        for version in 0..=255 {
            let wanted = (version != 4).then_some(0);
            assert_eq!(refused(&with(&image, 0, version)), wanted, "{version}");
        }
    }

    #[test]
    fn kinds_up_to_3() {
        let zeros = bytes(&EMPTY);
        for slot in 0..SLOTS {
            let at = 9 + 9 * slot;
            for kind in 0..=255 {
                let wanted = (kind > 3).then_some(at);
                assert_eq!(refused(&with(&zeros, at, kind)), wanted, "{slot} {kind}");
            }
        }
    }

    #[test]
    fn each_blank_byte() {
        for slot in 0..SLOTS {
            let at = 9 + 9 * slot;
            for kind in 0..=3 {
                let image = with(&bytes(&EMPTY), at, kind);
                let blank = match kind {
                    0 => 1..9,
                    2 => 7..9,
                    _ => 9..9,
                };
                for byte_of_slot in 1..9 {
                    let offset = at + byte_of_slot;
                    let wanted = blank.contains(&byte_of_slot).then_some(offset);
                    for byte in [1, 128, 255] {
                        assert_eq!(refused(&with(&image, offset, byte)), wanted, "{offset}");
                    }
                }
            }
        }
    }

    #[test]
    fn every_length() {
        let mut long = bytes(&all_kinds());
        long.extend([0; 20]);
        for length in 0..long.len() {
            let wanted = match length {
                298 => None,
                0..=297 => Some(length),
                _ => Some(298),
            };
            assert_eq!(refused(&long[..length]), wanted, "{length}");
        }
        // The length is wrong at its own offset, whatever the last byte that is there belongs to.
        for length in [0, 1, 8, 9, 152, 153, 281, 289, 297, 299] {
            assert_eq!(refused(&long[..length]), Some(length.min(298)));
        }
    }

    #[test]
    fn a_fault_before_a_wrong_length_and_one_behind_it() {
        let mut long = bytes(&all_kinds());
        long.push(0);
        // The kinds of slots 0, 5 and 15, two blank bytes, and the version.
        for offset in [0, 9, 18 + 1, 27 + 7, 27 + 8, 54, 144] {
            let broken = with(&long, offset, 5);
            for length in 0..=299 {
                let wanted = offset.min(length);
                assert_eq!(
                    refused(&broken[..length]),
                    Some(wanted),
                    "{offset} {length}"
                );
            }
        }
    }

    #[test]
    fn the_lower_of_two_faults() {
        let image = bytes(&EMPTY);
        let offsets = [0, 9, 17, 18, 25, 144, 152];
        for one in offsets {
            for other in offsets {
                let both = with(&with(&image, one, 9), other, 9);
                assert_eq!(refused(&both), Some(one.min(other)));
            }
        }
    }

    #[test]
    fn a_buffer_of_298_bytes_against_297() {
        let table = all_kinds();
        let mut buffer = [7; 304];
        let short = write(&table, &mut buffer[..297]);
        assert_eq!((short, buffer), (Err(Refusal::at(13, 0)), [7; 304]));
        assert_eq!(write(&table, &mut []), Err(Refusal::at(13, 0)));
        assert_eq!(write(&table, &mut buffer[..298]), Ok(298));
        assert_eq!(
            (&buffer[..298], &buffer[298..]),
            (&bytes(&table)[..], &[7; 6][..])
        );
        buffer = [8; 304];
        assert_eq!(write(&table, &mut buffer), Ok(298));
        assert_eq!(&buffer[298..], [8; 6]);
    }

    #[test]
    fn an_image_reads_back_as_its_table() {
        let mut random = Random::new(41);
        for round in 0..5_000 {
            let (mut table, _) = match round % 2 {
                0 => draw::any(&mut random),
                _ => draw::damaged(&mut random),
            };
            draw_leaving::any(&mut random, &mut table);
            draw_counts::any(&mut random, &mut table);
            draw_last::any(&mut random, &mut table);
            assert_eq!(read(&bytes(&table)), Ok(table));
        }
        for case in cases::all() {
            assert_eq!(read(&bytes(&case.table)), Ok(case.table));
        }
    }

    /// R82: what reads is written back byte for byte; so no two images read as one table.
    fn written_back_if_it_reads(image: &[u8]) -> bool {
        let Ok(table) = read(image) else { return false };
        assert_eq!(bytes(&table), image);
        true
    }

    #[test]
    fn every_change_of_one_byte() {
        for table in [EMPTY, all_kinds()] {
            let image = bytes(&table);
            let mut reading = 0;
            for offset in 0..LENGTH {
                for byte in 0..=255 {
                    let changed = with(&image, offset, byte);
                    let reads = written_back_if_it_reads(&changed);
                    assert_eq!(reads && read(&changed) == Ok(table), changed == image);
                    reading += usize::from(reads);
                }
            }
            // R83: each byte of the counts and the last slot may be any.
            assert!((37_120 + 2_000..76_288).contains(&reading), "{reading}");
        }
    }

    #[test]
    fn random_bytes_that_read_are_written_back() {
        let mut random = Random::new(42);
        let mut reading = 0;
        for _ in 0..5_000 {
            let mut image = bytes(&draw::any(&mut random).0);
            for _ in 0..1 + random.below(3) {
                let offset = random.below(298) as usize;
                let kind = offset < 153 && offset % 9 == 0;
                image[offset] = random.below(if kind { 5 } else { 256 }) as u8;
            }
            reading += usize::from(written_back_if_it_reads(&image));
        }
        assert!((500..4_500).contains(&reading), "{reading}");
    }
}
