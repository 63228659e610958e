//! The independent reference program. README.md says what it is and why it stands alone.

#[cfg(feature = "house")]
mod bench;
mod boundary;
#[cfg(test)]
mod by_hand;
mod card;
mod cases;
#[cfg(test)]
mod departures;
mod digest;
mod digits;
mod draw;
#[cfg(any(test, feature = "house"))]
mod draw_counts;
#[cfg(any(test, feature = "house"))]
mod draw_last;
mod draw_late;
mod draw_leaving;
mod edge_cards;
#[cfg(test)]
mod edge_counts;
#[cfg(test)]
mod edge_last;
mod edge_late;
mod edge_leaving;
mod edges;
mod esit;
mod handovers;
#[cfg(any(test, feature = "house"))]
mod history;
#[cfg(any(test, feature = "house"))]
mod image;
mod orders;
mod published;
mod random;
mod rules;
#[cfg(test)]
mod runs;
mod samples;
#[cfg(any(test, feature = "house"))]
mod slow;
mod spoil;
mod stored;
mod types;
mod vectors;

use std::io::{self, Read, Write};
use std::path::Path;
use std::process::ExitCode;

const USAGE: &str = "oracle answer < CARD
oracle rewrite < CARD
oracle example < CARD
oracle stored OUT_DIR
oracle sweep [FROM TO]
oracle handovers
oracle bench [RUNS]             (feature house)
oracle count WAY [T0] TIMES     (feature house)
oracle compare CALLS SEED|new   (feature house)
oracle replay FILE              (feature house)";

/// One card from standard input; R55: 209 bytes decide every card.
fn given_card() -> io::Result<Vec<u8>> {
    let mut bytes = Vec::new();
    let most = types::LONGEST_CARD as u64 + 1;
    io::stdin().lock().take(most).read_to_end(&mut bytes)?;
    Ok(bytes)
}

/// A text or a card to standard output, flushed, so that what could not be written is an error.
fn say(bytes: impl AsRef<[u8]>) -> io::Result<bool> {
    let mut out = io::stdout().lock();
    out.write_all(bytes.as_ref())?;
    out.flush()?;
    Ok(true)
}

/// R94: a card's twin to standard output and the slots that are reordered to standard error, or the refusal there.
fn rewrite(card: &[u8]) -> io::Result<bool> {
    let mut anew = [0; types::LONGEST_CARD];
    match boundary::rewrite(card, &mut anew) {
        Ok((length, turned)) => {
            say(&anew[..length])?;
            if turned != 0 {
                eprintln!("{}", boundary::reordered(turned.into()).trim_start());
            }
            Ok(true)
        }
        Err(refusal) => {
            eprintln!("{refusal}");
            Ok(false)
        }
    }
}

/// The text of a history; an error names its file.
#[cfg(feature = "house")]
fn written_history(file: &str) -> io::Result<String> {
    std::fs::read_to_string(file).map_err(|error| io::Error::other(format!("{file}: {error}")))
}

/// What needs the project's library.
#[cfg(feature = "house")]
fn beside_the_house(words: &[&str]) -> io::Result<bool> {
    match words {
        ["bench"] => Ok(bench::run(1)),
        ["bench", runs] => runs
            .parse::<std::num::NonZeroUsize>()
            .map_or_else(|_| usage(), |n| Ok(bench::run(n.get()))),
        ["count", way, times] => times
            .parse()
            .map_or_else(|_| usage(), |n| Ok(bench::count(way, None, n))),
        ["count", way, set, times] => match (set.parse(), times.parse()) {
            (Ok(set), Ok(n)) => Ok(bench::count(way, Some(set), n)),
            _ => usage(),
        },
        ["compare", calls, "new"] => calls.parse().map_or_else(
            |_| usage(),
            |calls| Ok(history::compare(calls, history::new_seed())),
        ),
        ["compare", calls, seed] => match (calls.parse(), seed.parse()) {
            (Ok(calls), Ok(seed)) => Ok(history::compare(calls, seed)),
            _ => usage(),
        },
        ["replay", file] => {
            let (replayed, same) = history::replay(&written_history(file)?)?;
            say(replayed).map(|_| same)
        }
        _ => usage(),
    }
}

#[cfg(not(feature = "house"))]
fn beside_the_house(_words: &[&str]) -> io::Result<bool> {
    usage()
}

/// Runs a command; false when it failed or is not known.
fn command(words: &[&str]) -> io::Result<bool> {
    match words {
        ["answer"] => say(card::answer(&given_card()?)),
        ["rewrite"] => rewrite(&given_card()?),
        ["example"] => say(boundary::example(&given_card()?)),
        ["stored", folder] => stored::write(Path::new(folder)).map(|()| true),
        ["sweep"] => {
            published::sweep(0, u64::MAX);
            Ok(true)
        }
        ["sweep", from, to] => match (from.parse(), to.parse()) {
            (Ok(from), Ok(to)) => {
                published::sweep(from, to);
                Ok(true)
            }
            _ => usage(),
        },
        ["handovers"] => say(handovers::figure()),
        _ => beside_the_house(words),
    }
}

fn usage() -> io::Result<bool> {
    eprintln!("{USAGE}");
    Ok(false)
}

fn main() -> ExitCode {
    let words: Vec<String> = std::env::args().skip(1).collect();
    let words: Vec<&str> = words.iter().map(String::as_str).collect();
    match command(&words) {
        Ok(true) => ExitCode::SUCCESS,
        Ok(false) => ExitCode::FAILURE,
        Err(error) => {
            eprintln!("{error}");
            ExitCode::FAILURE
        }
    }
}
