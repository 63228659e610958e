//! Broken images (R83): the lowest offset, before any other ground.

use crate::lent::Lent;
use crate::samples::{
    case_a, counted, image, leaving, offset, ran_last, refused, running, waiting, Image, BENCH,
    DEPARTED, IDLE, LAST_TICK,
};
use trimthuel::image::{admit, ask, counts, leave, ready, step, write_card};
use trimthuel::{Pump, TABLE_SIZE};

/// Every function that reads an image refuses these bytes with 11 at this offset, and leaves them.
#[track_caller]
fn broken(bytes: &[u8], at: usize) {
    let mut table = Lent::new(bytes);
    assert_eq!(ask(table.lend(), &BENCH), refused(11, at));
    assert_eq!(admit(table.lend(), &BENCH), refused(11, at));
    assert_eq!(step(table.lend()), refused(11, at));
    for number in [0, 3, 16, u64::MAX] {
        assert_eq!(leave(table.lend(), number), refused(11, at));
    }
    assert_eq!(ready(table.lend()), refused(11, at));
    assert_eq!(counts(table.lend()), refused(11, at));
    assert_eq!(write_card(table.lend(), &BENCH, &mut []), refused(11, at));
    assert_eq!(Pump::from_image(table.lend()), refused(11, at));
    table.holds(bytes);
}

fn with(mut image: Image, at: usize, byte: u8) -> Image {
    image[at] = byte;
    image
}

/// Each of these has a ground of its own: 1 and 15, 2, 3, 4 by a line and by the counts, 16 in slot 0, and none.
fn tables() -> [Image; 7] {
    let full: Vec<_> = (0..16).map(|slot| (slot, running(1, 64, 0, 1))).collect();
    [
        image(LAST_TICK, &[]),
        image(0, &full),
        image(0, &[(3, waiting(1, 4, 5))]),
        image(0, &[(0, running(9, 8, 8, 10))]),
        counted(image(0, &[]), &[(7, u64::MAX), (IDLE, u64::MAX)]),
        image(0, &[(0, leaving(1, 4, 3, 1))]),
        case_a(),
    ]
}

#[test]
fn another_version() {
    for table in tables() {
        for version in [0, 1, 2, 3, 5, 0xFF] {
            broken(&with(table, 0, version), 0);
        }
    }
}

#[test]
fn an_unknown_kind() {
    for table in tables() {
        for slot in 0..16 {
            for kind in [4, 0xFF] {
                broken(&with(table, offset(slot), kind), offset(slot));
            }
        }
    }
}

#[test]
fn a_byte_where_nothing_stands() {
    let table = image(
        LAST_TICK,
        &[
            (3, waiting(0, 0, 0)),
            (4, running(0, 0, 0, 0)),
            (5, leaving(0, 0, 0, 0)),
        ],
    );
    for slot in (0..16).filter(|slot| ![4, 5].contains(slot)) {
        let first = if slot == 3 { 7 } else { 1 };
        for at in offset(slot) + first..offset(slot) + 9 {
            for byte in [1, 0x80, 0xFF] {
                broken(&with(table, at, byte), at);
            }
        }
    }
}

#[test]
fn a_cut_and_a_byte_too_many() {
    for table in tables() {
        for length in 0..TABLE_SIZE {
            broken(&table[..length], length);
        }
        for more in [1, 2, TABLE_SIZE] {
            broken(&[&table[..], &table[..more]].concat(), TABLE_SIZE);
        }
    }
}

/// R81: as version 3 had it, and with the version of now.
#[test]
fn an_image_without_a_last_slot() {
    for table in tables() {
        broken(&with(table, 0, 3)[..297], 0);
        broken(&table[..297], 297);
    }
}

#[test]
fn the_lowest_offset_of_several() {
    let (kind, byte) = (offset(5), offset(4) + 8);
    let twice = with(with(case_a(), kind, 4), byte, 1);
    broken(&twice, byte);
    broken(&with(twice, 0, 0), 0);
    broken(&twice[..byte + 1], byte);
    broken(&twice[..byte], byte);
    broken(&twice[..byte - 1], byte - 1);
    broken(&[&twice[..], &[9]].concat(), byte);
    // What is behind a kind that is none is not looked at.
    broken(&with(with(case_a(), kind, 0xFF), kind + 1, 1), kind);
}

#[test]
fn any_numbers_are_taken() {
    let lines = [
        (0, running(0xFFFF, 0, 0xFFFF, 0xFFFF)),
        (1, leaving(0, 0xFFFF, 0xFFFF, 1)),
        (15, waiting(0, 0xFFFF, 0)),
    ];
    let table = image(u64::MAX, &lines);
    let all: Vec<_> = (0..=DEPARTED).map(|place| (place, u64::MAX)).collect();
    for table in [table, counted(table, &all)] {
        for table in (0..=255).map(|slot| ran_last(table, slot)) {
            assert_eq!(ready(&table), Ok(0b11));
            assert_eq!(Pump::from_image(&table).unwrap().image(), &table);
        }
    }
}
