//! What may be wrong with a table and its request, or with an image.

use crate::draw;
use crate::draw_leaving;
use crate::image;
use crate::random::Random;
use crate::types::{Content, Follows, Request, Run, Table, Wait, SLOTS};

fn byte(random: &mut Random) -> u8 {
    random.below(256) as u8
}

fn bytes(random: &mut Random, length: usize) -> Vec<u8> {
    (0..length).map(|_| byte(random)).collect()
}

fn any_slot(random: &mut Random) -> usize {
    random.below(SLOTS as u64) as usize
}

/// A sound line with a short period, so that ends and ties are frequent; one in three leaves.
fn short_line(random: &mut Random) -> Run {
    let period = 1 + random.small(8);
    let need = 1 + random.small(period.into());
    Run {
        need,
        period,
        age: random.small(period.into()),
        remaining: random.small(u64::from(need) + 1),
        follows: match random.below(3) {
            0 => Follows::Leaves,
            _ => Follows::Renews,
        },
    }
}

/// R22: no slot holds nothing.
fn fill(random: &mut Random, table: &mut Table) {
    for content in &mut table.slots {
        if *content == Content::Nothing {
            *content = Content::Running(short_line(random));
        }
    }
}

/// R23: a line that waits for up to three ticks, often in the place of another, whose count it keeps; one that waits for none, or
/// whose need does not fit, is not sound.
fn put_waiting(random: &mut Random, table: &mut Table) {
    let line = short_line(random);
    let more = random.small(8).saturating_sub(6);
    let any = any_slot(random);
    let counted = table.counts.had.iter().position(|ticks| *ticks > 0);
    let slot = counted.filter(|_| random.below(2) == 0).unwrap_or(any);
    table.slots[slot] = Content::Waiting(Wait {
        need: line.need * random.small(8).min(1) + more * line.period,
        period: line.period,
        wait: random.small(4),
    });
}

/// A running line, if there is one.
fn any_running<'a>(random: &mut Random, table: &'a mut Table) -> Option<&'a mut Run> {
    let lines = table.running().count() as u64;
    let drawn = (lines > 0).then(|| random.below(lines) as usize)?;
    table.running_mut().nth(drawn)
}

/// R30, R34: a line owes its whole need with some ticks left, often one, and half the time the others owe nothing.
fn hurry(random: &mut Random, table: &mut Table) {
    if random.below(2) == 0 {
        table.running_mut().for_each(|run| run.remaining = 0);
    }
    if let Some(run) = any_running(random, table) {
        let most = if random.below(2) == 0 { 1 } else { run.period };
        run.age = run.period.saturating_sub(1 + random.small(most.into()));
        run.remaining = run.need;
    }
}

/// R5: a need of all the period, or of a tick more.
fn full_need(random: &mut Random, table: &mut Table) {
    if let Some(run) = any_running(random, table) {
        run.need = run.period.saturating_add(random.small(2));
    }
}

/// R29, R30: sound ages and remainings that no run has led to.
fn scatter(random: &mut Random, table: &mut Table) {
    for run in table.running_mut() {
        run.age = random.small(run.period.into());
        run.remaining = random.small(u64::from(run.need) + 1);
    }
}

/// Short lines of all kinds, most of them sound.
fn short_lines(random: &mut Random, table: &mut Table) {
    for slot in 0..SLOTS {
        table.slots[slot] = match random.below(16) {
            0..=6 => Content::Running(short_line(random)),
            _ => Content::Nothing,
        };
    }
    if random.below(2) == 0 {
        put_waiting(random, table);
    }
}

/// R99: lines leave, with the T' that they have to have or with any.
fn let_go(random: &mut Random, table: &mut Table, request: &mut Request) {
    match random.below(8) {
        0 => draw_leaving::any(random, table),
        1 => draw_leaving::misfitting(random, table, request),
        2..=4 => draw_leaving::fitting(random, table, request),
        _ => {}
    }
}

/// One thing that is wrong with a table or its request, or merely not what a run leads to, beside lines that leave.
pub fn table(random: &mut Random, table: &mut Table, request: &mut Request) {
    let_go(random, table, request);
    match random.below(20) {
        0..=6 => draw::damage(random, table, request),
        7 => full_need(random, table),
        8 => fill(random, table),
        9 | 10 => put_waiting(random, table),
        11 | 12 => hurry(random, table),
        13..=15 => scatter(random, table),
        16 => table.clock = draw::any_clock(random),
        17 => (*table, *request) = draw::any(random),
        18 => short_lines(random, table),
        // R27: a prime number, so that the frame is long.
        _ => request.period = 9_973,
    }
}

/// A byte of an image changed, where it is still there.
fn put(image: &mut [u8], offset: usize, byte: u8) {
    if let Some(place) = image.get_mut(offset) {
        *place = byte;
    }
}

/// R83: one change of an image's bytes: its version, a kind, a byte that may be blank, its length, any byte.
fn spoil(random: &mut Random, image: &mut Vec<u8>) {
    let slot = image::slot_at(any_slot(random));
    let any = random.below(image::LENGTH as u64) as usize;
    let drawn = byte(random);
    match random.below(8) {
        0 => put(image, 0, drawn % 6),
        1 => put(image, slot, drawn % 5),
        2 => put(image, slot, drawn),
        3 => put(image, slot + 1 + any % 8, drawn),
        4 => {
            put(image, slot, 2);
            put(image, slot + 7 + any % 2, drawn);
        }
        5 => image.truncate(any),
        6 => image.extend(bytes(random, 1 + any % 17)),
        _ => put(image, any, drawn),
    }
}

/// Bytes of any length up to a few more than an image's, half of them with its version.
pub fn no_image(random: &mut Random) -> Vec<u8> {
    let length = random.below(image::LENGTH as u64 + 18) as usize;
    let mut drawn = bytes(random, length);
    if let Some(first) = drawn.first_mut().filter(|_| random.below(2) == 0) {
        *first = image::VERSION;
    }
    drawn
}

/// An image with up to three changes of its bytes, or any bytes in its place.
pub fn image(random: &mut Random, image: &[u8]) -> Vec<u8> {
    let mut spoilt = image.to_vec();
    match random.below(8) {
        0 => no_image(random),
        _ => {
            (0..=random.below(3)).for_each(|_| spoil(random, &mut spoilt));
            spoilt
        }
    }
}

/// An image cut, or with drawn bytes behind it, to a length.
pub fn resized(random: &mut Random, image: &[u8], length: usize) -> Vec<u8> {
    let mut resized = image.to_vec();
    resized.extend(bytes(random, length.saturating_sub(image.len())));
    resized.truncate(length);
    resized
}
