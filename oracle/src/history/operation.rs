//! One line of a history: something that lies on the desk is changed, or a function of the boundary is called.

use crate::boundary::{Act, Desk};
use crate::image;
use crate::types::{Content, Follows, Run, Wait, IDLE, NO_LAST, SLOTS};
use std::fmt;

#[derive(Clone, Debug, PartialEq, Eq)]
pub enum Operation {
    /// The clock in the image, where that is long enough to have one.
    Clock(u64),
    /// What a slot of the image holds, where it is long enough to have it.
    Slot(usize, Content),
    /// R95: a count in the image, by its place among the eighteen, where it is long enough to have it.
    Count(usize, u64),
    /// R105: the last slot in the image, where it is long enough to have it.
    Last(u8),
    /// One byte of the image, where it is there.
    Byte(usize, u8),
    /// The image is cut to so many bytes.
    Cut(usize),
    /// The image has these bytes more.
    More(Vec<u8>),
    /// R6: the stretched periods.
    Stretched([u16; SLOTS]),
    /// Another card to be read.
    Card(Vec<u8>),
    /// Another buffer to be written into: its length, and the byte that fills it and all guards.
    Lend(usize, u8),
    /// Nothing is changed: what the image holds is looked at.
    Table,
    /// R88: so many steps, or up to the first that is refused.
    Steps(u64),
    /// Any other call.
    Call(Act),
}

/// One call; a step is one of so many.
impl From<Act> for Operation {
    fn from(act: Act) -> Operation {
        match act {
            Act::Step => Operation::Steps(1),
            _ => Operation::Call(act),
        }
    }
}

impl Operation {
    /// The word for it.
    pub fn name(&self) -> &'static str {
        match self {
            Operation::Clock(_) => "clock",
            Operation::Slot(..) => "slot",
            Operation::Count(..) => "count",
            Operation::Last(_) => "last",
            Operation::Byte(..) => "byte",
            Operation::Cut(_) => "cut",
            Operation::More(_) => "more",
            Operation::Stretched(_) => "stretched",
            Operation::Card(_) => "card",
            Operation::Lend(..) => "lend",
            Operation::Table => "table",
            Operation::Steps(_) => Act::Step.name(),
            Operation::Call(act) => act.name(),
        }
    }

    /// The call that it makes, and how often.
    pub fn calls(&self) -> Option<(Act, u64)> {
        match self {
            Operation::Steps(times) => Some((Act::Step, *times)),
            Operation::Call(act) => Some((*act, 1)),
            _ => None,
        }
    }

    /// What it changes on a desk by itself; a call changes nothing here.
    pub fn lay(&self, desk: &mut Desk) {
        match self {
            Operation::Clock(clock) => put(desk, image::CLOCK, &clock.to_le_bytes()),
            Operation::Slot(slot, content) => {
                put(desk, image::slot_at(*slot), &image::slot_bytes(content));
            }
            Operation::Count(place, ticks) => {
                put(desk, image::count_at(*place), &ticks.to_le_bytes());
            }
            Operation::Last(last) => put(desk, image::LAST, &[*last]),
            Operation::Byte(at, byte) => put(desk, *at, &[*byte]),
            Operation::Cut(length) => {
                let mut cut = desk.image.part().to_vec();
                cut.truncate(*length);
                desk.image.replace(&cut);
            }
            Operation::More(bytes) => {
                let longer = [desk.image.part(), bytes].concat();
                desk.image.replace(&longer);
            }
            Operation::Stretched(periods) => desk.stretched.replace(periods),
            Operation::Card(bytes) => desk.card.replace(bytes),
            Operation::Lend(length, fill) => desk.lend(*length, *fill),
            Operation::Table | Operation::Steps(_) | Operation::Call(_) => {}
        }
    }

    /// The operation of a line: what stands before a colon is read, what it was told is not.
    pub fn from_line(line: &str) -> Option<Operation> {
        let words = line.split(':').next().unwrap_or("");
        let words: Vec<&str> = words.split_whitespace().collect();
        Some(match words[..] {
            ["clock", clock] => Operation::Clock(clock.parse().ok()?),
            ["slot", slot, "had", ticks] => {
                Operation::Count(slot_number(slot)?, ticks.parse().ok()?)
            }
            ["slot", slot, ref holds @ ..] => Operation::Slot(slot_number(slot)?, content(holds)?),
            ["idle", ticks] => Operation::Count(IDLE, ticks.parse().ok()?),
            ["departed", ticks] => Operation::Count(IDLE + 1, ticks.parse().ok()?),
            ["last", "none"] => Operation::Last(NO_LAST),
            ["last", last] => Operation::Last(last.parse().ok()?),
            ["byte", at, byte] => Operation::Byte(at.parse().ok()?, byte.parse().ok()?),
            ["cut", length] => Operation::Cut(length.parse().ok()?),
            ["more", ref hex @ ..] => Operation::More(bytes(hex)?),
            ["stretched", ref periods @ ..] => Operation::Stretched(stretched(periods)?),
            ["card", ref hex @ ..] => Operation::Card(bytes(hex)?),
            ["lend", length, fill] => Operation::Lend(length.parse().ok()?, fill.parse().ok()?),
            ["table"] => Operation::Table,
            ["step", times] => Operation::Steps(times.parse().ok()?),
            _ => Act::from_words(&words)?.into(),
        })
    }
}

/// Bytes of the image from an offset on, where all of them are there.
fn put(desk: &mut Desk, at: usize, bytes: &[u8]) {
    let end = at.saturating_add(bytes.len());
    if let Some(place) = desk.image.part_mut().get_mut(at..end) {
        place.copy_from_slice(bytes);
    }
}

fn slot_number(word: &str) -> Option<usize> {
    word.parse().ok().filter(|slot| *slot < SLOTS)
}

fn numbers<const N: usize>(words: &[&str]) -> Option<[u16; N]> {
    let numbers: Option<Vec<u16>> = words.iter().map(|word| word.parse().ok()).collect();
    numbers?.try_into().ok()
}

/// What a slot holds, in words: `nothing`, or `runs` or `leaves` with C, T, age and remaining, or `waits` with C, T and wait.
fn content(words: &[&str]) -> Option<Content> {
    let running = |words: &[&str], follows| {
        let [need, period, age, remaining] = numbers(words)?;
        Some(Content::Running(Run {
            need,
            period,
            age,
            remaining,
            follows,
        }))
    };
    match words {
        ["nothing"] => Some(Content::Nothing),
        ["runs", rest @ ..] => running(rest, Follows::Renews),
        ["leaves", rest @ ..] => running(rest, Follows::Leaves),
        ["waits", rest @ ..] => {
            let [need, period, wait] = numbers(rest)?;
            Some(Content::Waiting(Wait { need, period, wait }))
        }
        _ => None,
    }
}

/// Up to sixteen periods; those that are not written are 0.
fn stretched(words: &[&str]) -> Option<[u16; SLOTS]> {
    let zeros = vec!["0"; SLOTS.checked_sub(words.len())?];
    numbers(&[words, &zeros].concat())
}

/// Pairs of hexadecimal digits, with spaces wherever they are.
fn bytes(words: &[&str]) -> Option<Vec<u8>> {
    let digits: Option<Vec<u8>> = words
        .concat()
        .chars()
        .map(|digit| Some(digit.to_digit(16)? as u8))
        .collect();
    let digits = digits?;
    let pairs = digits.chunks_exact(2);
    let whole = pairs.remainder().is_empty();
    whole.then(|| pairs.map(|pair| 16 * pair[0] + pair[1]).collect())
}

fn hex(bytes: &[u8]) -> String {
    bytes.iter().map(|byte| format!("{byte:02X}")).collect()
}

/// R53: how long the record is that a card goes on with, as its mark says; what has no mark goes on to the end.
fn record_length(card: &[u8]) -> usize {
    let length = match card {
        [b'C', b'K', ..] => 10,
        [b'T', b'F', ..] => 2,
        [b'T', b'A' | b'B' | b'L', ..] => 12,
        [b'R', b'Q', ..] => 6,
        _ => card.len(),
    };
    length.min(card.len())
}

/// The bytes of a card with a space after each record.
pub fn records(card: &[u8]) -> String {
    let (mut words, mut rest) = (Vec::new(), card);
    while !rest.is_empty() {
        let (record, behind) = rest.split_at(record_length(rest));
        words.push(hex(record));
        rest = behind;
    }
    words.join(" ")
}

/// R95: a count in words, by its place among the eighteen.
pub fn counted(place: usize, ticks: u64) -> String {
    match place {
        0..SLOTS => format!("slot {place} had {ticks}"),
        IDLE => format!("idle {ticks}"),
        _ => format!("departed {ticks}"),
    }
}

/// Periods up to the last that is not 0, each with a space before it.
pub fn written(periods: &[u16]) -> String {
    let used = periods.iter().rposition(|period| *period > 0);
    let written = &periods[..used.map_or(0, |last| last + 1)];
    let words = written.iter().map(|period| format!(" {period}"));
    words.collect()
}

impl fmt::Display for Content {
    fn fmt(&self, f: &mut fmt::Formatter<'_>) -> fmt::Result {
        match self {
            Content::Nothing => f.write_str("nothing"),
            Content::Running(run) => {
                let word = if run.leaves() { "leaves" } else { "runs" };
                let (need, period) = (run.need, run.period);
                write!(f, "{word} {need} {period} {} {}", run.age, run.remaining)
            }
            Content::Waiting(line) => {
                write!(f, "waits {} {} {}", line.need, line.period, line.wait)
            }
        }
    }
}

impl fmt::Display for Operation {
    fn fmt(&self, f: &mut fmt::Formatter<'_>) -> fmt::Result {
        let name = self.name();
        match self {
            Operation::Clock(clock) => write!(f, "{name} {clock}"),
            Operation::Slot(slot, content) => write!(f, "{name} {slot} {content}"),
            Operation::Count(place, ticks) => f.write_str(&counted(*place, *ticks)),
            Operation::Last(NO_LAST) => write!(f, "{name} none"),
            Operation::Last(last) => write!(f, "{name} {last}"),
            Operation::Byte(at, byte) => write!(f, "{name} {at} {byte}"),
            Operation::Cut(length) => write!(f, "{name} {length}"),
            Operation::More(bytes) => write!(f, "{name} {}", hex(bytes)),
            Operation::Card(bytes) => write!(f, "{name} {}", records(bytes)),
            Operation::Stretched(periods) => write!(f, "{name}{}", written(periods)),
            Operation::Lend(length, fill) => write!(f, "{name} {length} {fill}"),
            Operation::Steps(times) if *times != 1 => write!(f, "{name} {times}"),
            Operation::Table | Operation::Steps(_) => f.write_str(name),
            Operation::Call(act) => write!(f, "{act}"),
        }
    }
}
