//! The step in three ways: the table by value within a run (R66), on an image over the boundary (R88), and both in plain Rust.

use super::asks::{best, Question};
use super::figures::Row;
use crate::card;
use crate::image;
use crate::rules;
use crate::types::{Content, Follows, Request, Run, EMPTY, ZEROS};
use std::hint::black_box;

/// R66: a number of 16 bits.
const TICKS: u16 = 50_000;
const LOOKS: usize = 50_000;

/// A table of `lines` equal lines, and a new line that can start at once if there is a slot for it.
pub fn equal_lines(lines: usize) -> Question {
    let mut table = EMPTY;
    let mut request = Request {
        need: 1,
        period: 64,
        ..ZEROS
    };
    for i in 0..lines {
        table.slots[i] = Content::Running(Run {
            need: 2,
            period: 64,
            age: 0,
            remaining: 2,
            follows: Follows::Renews,
        });
        request.stretched[i] = 64;
    }
    (table, request)
}

/// The image of a table of so many lines, the last of them just admitted.
fn admitted(lines: usize) -> Vec<u8> {
    let (table, request) = equal_lines(lines - 1);
    rules::admit(&table, &request).map_or(Vec::new(), |(_, next)| image::bytes(&next))
}

/// Our step by value: the card is read and its line admitted once for all ticks.
fn by_value(bytes: &[u8]) -> f64 {
    best(TICKS.into(), || {
        let _ = black_box(trimthuel::run(black_box(bytes), TICKS));
    })
}

/// The time of one step of an image, and the image after all of them.
fn on_image<T>(image: &[u8], step: impl Fn(&mut [u8]) -> T) -> (f64, Vec<u8>) {
    let mut stepped = Vec::new();
    let time = best(TICKS.into(), || {
        stepped = image.to_vec();
        for _ in 0..TICKS {
            black_box(step(black_box(&mut stepped)));
        }
    });
    (time, stepped)
}

/// Sixteen lines within a run, beside (b) in place.
pub fn run(fine: &mut bool) -> Row {
    let (table, request) = equal_lines(15);
    let bytes = card::bytes(&table, &request);
    let mut ran = 0;
    let plain = best(TICKS.into(), || {
        let Ok((mut pump, request, _)) = quick::read(black_box(&bytes)) else {
            return;
        };
        let (need, period) = (request.need, request.period);
        pump.slots[15] = quick::Held::Running {
            need,
            period,
            age: 0,
            remaining: need,
            leaves: false,
        };
        ran = (0..TICKS)
            .filter(|_| pump.step().is_ok_and(|slot| slot.is_some()))
            .count() as u64;
        black_box(&pump);
    });
    *fine &= trimthuel::run(&bytes, TICKS) == Ok(ran);
    Row::new("step, sixteen lines".into(), vec![by_value(&bytes), plain])
}

/// A table of so many lines, its image read and written in each step.
pub fn image_step(fine: &mut bool, name: &str, lines: usize) -> Row {
    let (table, request) = equal_lines(lines - 1);
    let image = admitted(lines);
    let (ours, stepped) = on_image(&image, trimthuel::image::step);
    let by_value = by_value(&card::bytes(&table, &request));
    let (plain, other) = on_image(&image, quick::step_image);
    *fine &= stepped == other && stepped != image;
    Row::new(name.into(), vec![ours, by_value, plain])
}

/// R89: sixteen lines.
pub fn ready(fine: &mut bool) -> Row {
    let image = admitted(16);
    let ours = looked(&image, trimthuel::image::ready);
    let plain = looked(&image, quick::ready_image);
    *fine &=
        trimthuel::image::ready(&image) == Ok(0xFFFF) && quick::ready_image(&image) == Ok(0xFFFF);
    Row::new("the ready word of an image".into(), vec![ours, plain])
}

/// The time of one look at an image.
fn looked<T>(image: &[u8], look: impl Fn(&[u8]) -> T) -> f64 {
    best(LOOKS, || {
        for _ in 0..LOOKS {
            black_box(look(black_box(image)));
        }
    })
}
