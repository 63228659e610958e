//! The operations that lay something wanted on a desk.

use super::operation::Operation;
use crate::boundary::Desk;
use crate::image;
use crate::types::{COUNTS, EMPTY, SLOTS};
use std::ops::Range;

/// How many parts of a length are whole in so many bytes, if the first of them begins at an offset; at most so many.
fn whole_parts(bytes: usize, first: usize, length: usize, most: usize) -> usize {
    (bytes.saturating_sub(first) / length).min(most)
}

/// The operations that turn an image into another: clock, slots, counts and last slot in words as far as they can be, else bytes.
pub fn image(now: &[u8], wanted: &[u8]) -> Vec<Operation> {
    let mut operations = Vec::new();
    if now.len() > wanted.len() {
        operations.push(Operation::Cut(wanted.len()));
    }
    let common = now.len().min(wanted.len());
    let slots = whole_parts(common, image::FIRST_SLOT, image::SLOT_LENGTH, SLOTS);
    let counts = whole_parts(common, image::FIRST_COUNT, image::COUNT_LENGTH, COUNTS);
    let in_words = match common {
        0..image::FIRST_SLOT => 0,
        image::FIRST_SLOT..image::FIRST_COUNT => image::slot_at(slots),
        _ => image::count_at(counts),
    };
    push_bytes(now, wanted, 0..in_words.min(image::CLOCK), &mut operations);
    if in_words > 0
        && now[image::CLOCK..image::FIRST_SLOT] != wanted[image::CLOCK..image::FIRST_SLOT]
    {
        operations.push(Operation::Clock(image::clock(wanted)));
    }
    for slot in 0..slots {
        push_slot(now, wanted, slot, &mut operations);
    }
    push_counts(now, wanted, 0..counts, &mut operations);
    push_bytes(now, wanted, in_words..common, &mut operations);
    if wanted.len() > now.len() {
        operations.push(Operation::More(wanted[now.len()..].to_vec()));
    }
    operations
}

/// R81: the last slot is one byte, which has words of its own.
fn push_bytes(now: &[u8], wanted: &[u8], offsets: Range<usize>, operations: &mut Vec<Operation>) {
    let differing = offsets.filter(|at| now[*at] != wanted[*at]);
    operations.extend(differing.map(|at| match at {
        image::LAST => Operation::Last(wanted[at]),
        _ => Operation::Byte(at, wanted[at]),
    }));
}

fn push_counts(now: &[u8], wanted: &[u8], places: Range<usize>, operations: &mut Vec<Operation>) {
    let differing = places.filter(|at| image::count(now, *at) != image::count(wanted, *at));
    operations.extend(differing.map(|at| Operation::Count(at, image::count(wanted, at))));
}

/// R83: a slot whose bytes are not what its content has is laid byte by byte.
fn push_slot(now: &[u8], wanted: &[u8], slot: usize, operations: &mut Vec<Operation>) {
    let offsets = image::slot_at(slot)..image::slot_at(slot + 1);
    if now[offsets.clone()] == wanted[offsets.clone()] {
        return;
    }
    let content = image::content(wanted, slot);
    if image::slot_bytes(&content) == wanted[offsets.clone()] {
        operations.push(Operation::Slot(slot, content));
    } else {
        push_bytes(now, wanted, offsets, operations);
    }
}

/// The operations that lay on a new desk what a call on this one reads, and lend what it is lent.
pub fn desk(desk: &Desk) -> Vec<Operation> {
    let mut operations = vec![Operation::Lend(desk.out.part().len(), desk.fill())];
    operations.extend(image(&image::bytes(&EMPTY), desk.image.part()));
    operations.push(Operation::Stretched(*desk.stretched.array()));
    operations.push(Operation::Card(desk.card.part().to_vec()));
    operations
}
