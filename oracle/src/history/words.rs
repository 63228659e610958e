//! What an operation was told, in words.

use super::operation::{counted, records, written, Operation};
use crate::boundary::{reordered, Act, Desk, Told, NO_SLOT};
use crate::image;
use crate::types::{Content, NO_LAST, SLOTS};

/// What an operation says; most of what is only laid on the desk says nothing.
fn said(operation: &Operation, all: &[Told], desk: &Desk) -> Option<String> {
    match operation {
        Operation::Table => Some(table(desk.image.part())),
        Operation::Steps(_) => Some(steps(all)),
        Operation::Call(act) => all.first().map(|told| one(act, told, desk)),
        _ => None,
    }
}

/// An operation with what it says.
pub fn line(operation: &Operation, all: &[Told], desk: &Desk) -> String {
    match said(operation, all, desk) {
        Some(words) => format!("{operation}: {words}"),
        None => operation.to_string(),
    }
}

/// What a call was told, or what it wrote.
fn one(act: &Act, told: &Told, desk: &Desk) -> String {
    let (value, place) = (told.value, told.place);
    if told.number != 0 {
        return told.refusal();
    }
    let out = || desk.out.part().get(..value as usize).unwrap_or(&[]);
    match act {
        Act::Ask(_) | Act::Admit(_) => format!("start {value} slot {place}"),
        Act::Answer => format!("line {}", String::from_utf8_lossy(out()).trim_end()),
        Act::WriteCard(_) => records(out()),
        Act::Rewrite => records(out()) + &reordered(place),
        Act::ReadCard => {
            let numbers = desk.numbers.part();
            let (need, period) = (numbers[SLOTS], numbers[SLOTS + 1]);
            let stretched = written(&numbers[..SLOTS]);
            format!("length {value}, line {need} {period}, stretched{stretched}")
        }
        Act::Leave(_) => format!("gone in {value}"),
        Act::Empty => format!("length {value}"),
        Act::Run(_) => format!("ran {value}"),
        Act::Ready => format!("word {value}"),
        Act::Counts => format!("clock {value}{}", counts(desk.counts.part())),
        Act::Lamp(_) => format!("blinks {value}"),
        Act::Step | Act::Version => value.to_string(),
    }
}

/// A character for each tick, as the controllers of bindings/ print it; at the end the refusal, if there is one.
fn steps(all: &[Told]) -> String {
    let granted = all.iter().filter(|told| told.number == 0);
    let mut words: String = granted.map(|told| mark(told.value)).collect();
    if let Some(told) = all.last().filter(|told| told.number != 0) {
        let space = if words.is_empty() { "" } else { " " };
        words += space;
        words += &told.refusal();
    }
    words
}

/// The slot that got a tick, or a dot for none.
fn mark(slot: u64) -> char {
    match slot {
        NO_SLOT => '.',
        _ => char::from_digit(slot as u32, 16).unwrap_or('?'),
    }
}

/// R95: the counts that are not 0, in the words that lay them.
fn counts(all: &[u64]) -> String {
    let counted_any = all.iter().enumerate().filter(|(_, ticks)| **ticks > 0);
    let words = counted_any.map(|(place, ticks)| format!(", {}", counted(place, *ticks)));
    words.collect()
}

/// R83: the clock, the slots that hold a line, the counts that are not 0 and the last slot if it is not none, or where the image is broken.
pub fn table(image: &[u8]) -> String {
    match image::read(image) {
        Err(refusal) => refusal.to_string(),
        Ok(table) => {
            let slots = table.slots.iter().enumerate();
            let held = slots.filter(|(_, content)| **content != Content::Nothing);
            let words = held.map(|(slot, content)| format!(", slot {slot} {content}"));
            let (slots, counts) = (words.collect::<String>(), counts(&table.counts.all()));
            let last = match table.last {
                NO_LAST => String::new(),
                last => format!(", {}", Operation::Last(last)),
            };
            format!("clock {}{slots}{counts}{last}", table.clock)
        }
    }
}
