//! Random histories over the C boundary (R63 to R66, R85 to R93, R98, R102), done by the project's library and by the rules side by
//! side. After every call both have told the same, and every byte and number that lies on their desks is the same. The
//! first difference ends the comparison, and is shown as a short history in words.

mod beside;
mod damage;
mod drawn;
#[cfg(feature = "house")]
mod house;
mod laid;
mod met;
mod operation;
mod replay;
mod requests;
mod shrink;
mod tally;
#[cfg(test)]
mod tests;
mod turns;
mod words;

use crate::random::Random;
use beside::Doer;
use drawn::Drawn;
use tally::Tally;

/// Histories up to so many calls; the text of the first difference, made short, if there is one.
fn compared(library: Doer, calls: u64, seed: u64, tally: &mut Tally) -> Option<String> {
    let mut random = Random::new(seed);
    while tally.compared() < calls {
        let first = tally.histories == 0;
        let mut drawn = Drawn::new(library, &mut random, tally);
        let done = if first {
            drawn.first()
        } else {
            drawn.history()
        };
        if done.is_err() {
            let history = shrink::shrunk(library, &drawn.operations);
            return Some(replay::written(library, &history));
        }
    }
    None
}

/// Compares at least so many calls; true when none differs, each refusal was met that is given at all, and so was all that can be
/// met of the counts, of lines that leave, of lines that are late and of the last slot.
#[cfg(feature = "house")]
pub fn compare(calls: u64, seed: u64) -> bool {
    let begun = std::time::Instant::now();
    let mut tally = Tally::default();
    println!("seed {seed}");
    if let Some(history) = compared(house::did, calls, seed, &mut tally) {
        let (done, histories) = (tally.compared(), tally.histories);
        println!("after {done} calls, in history {histories}, a difference:\n{history}");
        return false;
    }
    print!("{tally}");
    let (done, histories) = (tally.compared(), tally.histories);
    let seconds = begun.elapsed().as_secs_f64();
    println!("histories {histories} calls {done} no difference, seconds {seconds:.1}");
    let (amiss, unmet) = (tally.amiss(), tally.unmet());
    if !amiss.is_empty() {
        println!("refusals that were not met, or met though they are not given: {amiss:?}");
    }
    if !unmet.is_empty() {
        println!("what was not met: {unmet:?}");
    }
    amiss.is_empty() && unmet.is_empty()
}

/// A seed that no run had before.
#[cfg(feature = "house")]
pub fn new_seed() -> u64 {
    let since = std::time::SystemTime::now().duration_since(std::time::UNIX_EPOCH);
    since.map_or(0, |time| time.as_nanos() as u64)
}

/// A written history done again: its text with every answer, and whether nothing differs.
#[cfg(feature = "house")]
pub fn replay(text: &str) -> std::io::Result<(String, bool)> {
    replay::replayed(house::did, text).map_err(std::io::Error::other)
}
