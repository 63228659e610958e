//! A history that is written down, done again.

use super::beside::{Beside, Difference, Doer};
use super::operation::Operation;
use super::words;
use crate::boundary::{Lent, GUARD};
use std::fmt::Display;

/// How many differing bytes of a buffer are shown.
const SHOWN: usize = 4;

/// The text of a history with what each of its operations says, up to the first that differs; and whether none does.
/// Empty lines and lines that begin with `#` stay as they are. A line that is no operation is an error.
pub fn replayed(library: Doer, text: &str) -> Result<(String, bool), String> {
    let mut beside = Beside::new(library);
    let mut replayed = String::new();
    for (number, line) in text.lines().enumerate() {
        if line.trim().is_empty() || line.starts_with('#') {
            replayed += &format!("{line}\n");
            continue;
        }
        let no_operation = || format!("line {}: no operation: {line}", number + 1);
        let operation = Operation::from_line(line).ok_or_else(no_operation)?;
        match beside.operate(&operation) {
            Ok(all) => {
                let said = words::line(&operation, &all, &beside.desk);
                replayed += &format!("{said}\n");
            }
            Err(difference) => {
                replayed += &format!("{operation}\n{}", explained(&difference));
                return Ok((replayed, false));
            }
        }
    }
    Ok((replayed, true))
}

/// A history in words, the last operation of which differs.
pub fn written(library: Doer, history: &[Operation]) -> String {
    let text: String = history.iter().map(|op| format!("{op}\n")).collect();
    replayed(library, &text).map_or_else(|error| error, |(replayed, _)| replayed)
}

/// What differs in a call, as remarks of a history.
fn explained(difference: &Difference) -> String {
    let (told, wanted) = (&difference.told, &difference.wanted);
    let (left, expected) = (&difference.left, &difference.expected);
    let mut text = String::new();
    if difference.before > 0 {
        text += &format!("# steps before it: {}\n", difference.before);
    }
    if told != wanted {
        text += &format!("# told {told}\n# by the rules {wanted}\n");
    }
    let (table, rules) = [left, expected]
        .map(|desk| words::table(desk.image.part()))
        .into();
    if table != rules {
        text += &format!("# table {table}\n# by the rules {rules}\n");
    }
    text += &unlike("image", &left.image, &expected.image);
    text += &unlike("card", &left.card, &expected.card);
    text += &unlike("out", &left.out, &expected.out);
    text += &unlike("stretched", &left.stretched, &expected.stretched);
    text += &unlike("numbers", &left.numbers, &expected.numbers);
    text + &unlike("counts", &left.counts, &expected.counts)
}

/// The first bytes or numbers of a part of the desk that were left unlike, by their offset; a guard's lie outside.
fn unlike<T: Copy + Display + PartialEq>(name: &str, left: &Lent<T>, expected: &Lent<T>) -> String {
    let pairs = left.all().iter().zip(expected.all()).enumerate();
    let differing = pairs.filter(|(_, (left, expected))| left != expected);
    let words = differing.map(|(index, (left, expected))| {
        let offset = index as i64 - GUARD as i64;
        format!("# {name} {offset}: {left}, by the rules {expected}\n")
    });
    words.take(SHOWN).collect()
}
