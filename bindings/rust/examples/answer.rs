//! answer FILE: the answer line of a card, and what else the boundary says of it.
//!
//! Exit status: 0 the bench is released, 1 it is refused, 2 trouble: the card could not be read or the
//! answer not be written. A card that cannot be read is not a broken card: it gets a message and no answer.

use std::fmt::Display;
use std::fs::File;
use std::io::{self, Read, Write};
use std::process::ExitCode;
use trimthuel::{Late, Refusal, Rewritten, CARD_MAX, LINE_MAX};

/// R55: one byte more than the longest card, so that a longer file is seen to be too long.
fn card_of(path: &str) -> io::Result<Vec<u8>> {
    let mut card = Vec::new();
    let most = CARD_MAX as u64 + 1;
    File::open(path)?.take(most).read_to_end(&mut card)?;
    Ok(card)
}

/// The ticks that the pump is run.
const TICKS: u16 = 56;

/// R103: the tick and the excess that refusal 10 says.
fn shown_late(late: Option<Late>) -> String {
    late.map_or_else(String::new, |Late { tick, excess }| {
        format!(" {tick} {excess}")
    })
}

/// R63: what a call answered: its value, or `refused` with number and place, and with 10 its tick and its excess.
fn shown(told: Result<impl Display, Refusal>) -> String {
    match told {
        Ok(value) => value.to_string(),
        Err(Refusal {
            number,
            place,
            late,
        }) => format!("refused {number} {place}{}", shown_late(late)),
    }
}

/// R65: the slots whose record was TA, lowest first, if there are any.
fn reordered(rewritten: Rewritten) -> String {
    let slots: String = rewritten.slots().map(|slot| format!(" {slot}")).collect();
    if slots.is_empty() {
        return slots;
    }
    format!(" reordered{slots}")
}

/// R65, R72: a card that reads comes back the same, or as its twin.
fn shown_rewritten(card: &[u8]) -> String {
    let mut anew = [0; CARD_MAX];
    shown(trimthuel::rewrite(card, &mut anew).map(|rewritten| {
        let same = &anew[..rewritten.length] == card;
        let remark = if same { " the same" } else { "" };
        format!("{}{remark}{}", rewritten.length, reordered(rewritten))
    }))
}

/// Writes all that is said of a card; true if the bench is released.
fn show(card: &[u8], out: &mut impl Write) -> io::Result<bool> {
    let mut line = [0; LINE_MAX];
    let length = trimthuel::answer(card, &mut line).map_err(io::Error::other)?;
    out.write_all(&line[..length])?;
    let released = line.starts_with(b"release ");
    let short = trimthuel::answer(card, &mut line[..length - 1]);
    writeln!(out, "short {}", shown(short))?;
    writeln!(out, "rewritten {}", shown_rewritten(card))?;
    let ran = trimthuel::run(card, TICKS);
    writeln!(out, "ran {} of {TICKS}", shown(ran))?;
    out.flush()?;
    Ok(released)
}

fn main() -> ExitCode {
    let words: Vec<String> = std::env::args().skip(1).collect();
    let [path] = words.as_slice() else {
        eprintln!("usage: answer FILE");
        return ExitCode::from(2);
    };
    match card_of(path).and_then(|card| show(&card, &mut io::stdout().lock())) {
        Ok(true) => ExitCode::SUCCESS,
        Ok(false) => ExitCode::from(1),
        Err(error) => {
            eprintln!("{path}: {error}");
            ExitCode::from(2)
        }
    }
}
