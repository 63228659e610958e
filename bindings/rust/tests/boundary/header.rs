//! The crate's words and constants are the header's.

use crate::samples::{late, refused};
use std::error::Error;
use std::mem::{offset_of, size_of};
use trimthuel::numbers::Numbers;
use trimthuel::Refusal;

const HEADER: &str = include_str!("../../../../include/trimthuel.h");

fn refusal(number: u16) -> Refusal {
    Refusal {
        number,
        place: 0,
        late: None,
    }
}

#[test]
fn the_same_words() {
    let entry = |line: &'static str| line.trim().strip_prefix("/*")?.strip_suffix("\",");
    let words = HEADER.lines().filter_map(entry).map(|entry| {
        let (number, why) = entry.split_once(" */ \"").expect("a number and words");
        (number.trim().parse().expect("a number"), why)
    });
    let ours = (0..=16).map(|number| (number, refusal(number).why()));
    assert_eq!(Vec::from_iter(words), Vec::from_iter(ours));
    for number in [17, u16::MAX] {
        assert_eq!(refusal(number).why(), refusal(0).why());
    }
}

#[test]
fn the_same_constants() {
    let defined = HEADER.lines().filter_map(|line| {
        let (name, value) = line.strip_prefix("#define TRIMTHUEL_")?.split_once(' ')?;
        Some((name, value.parse().expect("a number")))
    });
    let ours = [
        ("VERSION", trimthuel::VERSION as usize),
        ("IMAGE_VERSION", trimthuel::IMAGE_VERSION.into()),
        ("SLOTS", trimthuel::SLOTS),
        ("TABLE_SIZE", trimthuel::TABLE_SIZE),
        ("COUNTS", trimthuel::COUNTS),
        ("REQUEST_SIZE", trimthuel::REQUEST_SIZE),
        ("CARD_MAX", trimthuel::CARD_MAX),
        ("LINE_MAX", trimthuel::LINE_MAX),
        ("NO_SLOT", trimthuel::numbers::NO_SLOT as usize),
    ];
    assert_eq!(Vec::from_iter(defined), ours);
}

/// R63: the words of a result, each of 64 bits, in their order.
#[test]
fn the_same_result() {
    let (_, behind) = HEADER
        .split_once("struct trimthuel_result {\n")
        .expect("the struct");
    let (inside, _) = behind.split_once("};").expect("its end");
    let name = |line: &'static str| line.trim().strip_prefix("uint64_t ")?.strip_suffix(';');
    let names = inside.lines().map(|line| name(line).expect("a word"));
    let ours = [
        ("number", offset_of!(Numbers, number)),
        ("place", offset_of!(Numbers, place)),
        ("value", offset_of!(Numbers, value)),
        ("tick", offset_of!(Numbers, tick)),
        ("excess", offset_of!(Numbers, excess)),
    ];
    assert_eq!(Vec::from_iter(names.zip((0..).step_by(8))), ours);
    assert_eq!(size_of::<Numbers>(), 8 * ours.len());
}

#[test]
fn r50_the_lamp() {
    let blinks = Vec::from_iter((0..=17).map(|number| refusal(number).blinks()));
    let wanted = [0, 1, 1, 1, 2, 2, 2, 3, 3, 3, 3, 4, 4, 4, 5, 5, 0, 0];
    assert_eq!(blinks, wanted);
    // R90: all 64 bits are looked at.
    for number in [16, 256, (1 << 16) + 1, (1 << 32) + 15, u64::MAX] {
        assert_eq!(trimthuel::lamp(number), 0);
    }
}

/// The words of an error.
fn said(refusal: Result<(), Refusal>) -> String {
    let told = || -> Result<(), Box<dyn Error>> { Ok(refusal?) };
    told().map_or_else(|error| error.to_string(), |()| String::new())
}

#[test]
fn a_refusal_is_an_error() {
    assert_eq!(
        said(refused(11, 22)),
        "refusal 11 at 22: a broken card or image"
    );
}

/// R103: the words of refusal 10 say when and by how much.
#[test]
fn a_refusal_says_by_how_much_it_is_late() {
    let why = "refusal 10 at 0: the running lines alone come too late";
    assert_eq!(said(refused(10, 0)), why);
    assert_eq!(said(late(3, 2)), format!("{why}: 2 ticks short at tick 3"));
    assert_eq!(
        said(late(103, 1)),
        format!("{why}: 1 tick short at tick 103")
    );
}
