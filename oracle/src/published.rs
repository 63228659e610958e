//! The task sets of the published paper (its tables 1 and 2) and its nine answers.
//!
//! The paper is Guangming Qian, "The Earliest Smooth Release Time for a New Task Based on EDF
//! Algorithm", IEEE Access 2020, DOI 10.1109/ACCESS.2020.3043260.
//!
//! τ0 has a period of 50 to 250 and C0 = ⌊0.195 × T0⌋; τ1 is (48, 120), stretched to 480; τ2 is
//! (72, 180), stretched to 720; T3 is the least common multiple of T0, 120 and 180, and
//! C3 = (1 − (C0/T0 + C1/T1 + C2/T2)) × T3; the new line is (3, 5). All start at time 0. Sets
//! with T3 above 65,535 do not fit sixteen bits: of the 201 sets 184 can be rebuilt. Equal ends
//! go to the lowest slot, whoever ran before, and the order τ3, τ2, τ1, τ0 in the slots gives the published answers.

use crate::cases;
use crate::digest::Digest;
use crate::esit;
use crate::rules;
use crate::types::{Refusal, Request, Table};
use std::time::Instant;

/// (T0, request tick t_r, earliest smooth release time).
pub const ANSWERS: [(u64, u64, u64); 9] = [
    (81, 1, 1),
    (90, 328, 333),
    (90, 321, 322),
    (121, 1, 1),
    (125, 3_575, 3_581),
    (125, 3_581, 3_582),
    (181, 1, 1),
    (200, 117, 126),
    (200, 1_906, 1_907),
];

/// The periods T0 of table 1.
pub const FIRST_PERIODS: std::ops::RangeInclusive<u64> = 50..=250;

/// The periods T0 whose sets have a row of their own in a figure.
pub const SHOWN: [u64; 6] = [60, 90, 125, 150, 181, 200];

/// T3, the least common multiple of T0, 120 and 180, and so of all periods before compression.
pub fn round(first_period: u64) -> u64 {
    let multiples = (1..=360).map(|times| times * first_period);
    let mut common = multiples.filter(|multiple| *multiple % 360 == 0);
    common.next().unwrap_or(360 * first_period)
}

/// The set of T0 at time 0 with its request, or none where T3 does not fit.
pub fn set(first_period: u64) -> Option<(Table, Request)> {
    let round = round(first_period);
    let t0 = u16::try_from(first_period).ok()?;
    let t3 = u16::try_from(round).ok()?;
    let need = 195 * first_period / 1000;
    let c0 = u16::try_from(need).ok()?;
    // 1 − 0.4 − 0.4 = 1/5 of T3, less the share of τ0; 360 divides T3, so 5 does.
    let c3 = u16::try_from(round / 5 - need * (round / first_period)).ok()?;
    let lines = [
        (c3, t3, t3, 0, c3),
        (72, 180, 720, 0, 72),
        (48, 120, 480, 0, 48),
        (c0, t0, t0, 0, c0),
    ];
    Some(cases::row(0, &lines, (3, 5)))
}

/// A step by the paper's rule for equal ends: its tables and answers belong to that, and R44 would come to other tables. With no last
/// slot R44 says the same; so that is forgotten before each step, and no second rule is needed.
pub fn step(table: &Table) -> Result<(Table, Option<usize>), Refusal> {
    rules::step(&table.without_last())
}

/// The table at the request tick: stepped on from time 0, with no request before.
pub fn at(start: &Table, tick: u64) -> Table {
    let mut now = *start;
    while now.clock < tick {
        match step(&now) {
            Ok((next, _)) => now = next,
            Err(_) => break,
        }
    }
    now
}

/// What the sweep counts.
#[derive(Default)]
struct Sweep {
    sets: u64,
    asks: u64,
    later: u64,
    refused: u64,
    esit_differing: u64,
    house_differing: u64,
}

impl Sweep {
    /// Every request tick 0 .. T3 − 1 of one set; prints T0, T3 and the digest of its starts.
    fn set(&mut self, first_period: u64) {
        let Some((begin, request)) = set(first_period) else {
            return;
        };
        self.sets += 1;
        let mut digest = Digest::new();
        let mut now = begin;
        for tick in 0..round(first_period) {
            now = at(&now, tick);
            digest.fold(self.ask(&now, &request));
        }
        let (round, digest) = (round(first_period), digest.value());
        println!("T0 {first_period} T3 {round} digest {digest}");
    }

    /// One ask, with the paper's algorithm 1 beside it; the start, or 0 for a refusal.
    fn ask(&mut self, table: &Table, request: &Request) -> u64 {
        self.asks += 1;
        let Ok(start) = rules::ask_before_last_end(table, request) else {
            self.refused += 1;
            return 0;
        };
        self.later += u64::from(start > table.clock);
        let esit = esit::earliest(table, request).start;
        self.esit_differing += u64::from(esit != start);
        self.house_differing += u64::from(!house_says(table, request, start));
        start
    }
}

/// Whether the project's answer to the card is this start; true without the feature `house`.
#[cfg(feature = "house")]
fn house_says(table: &Table, request: &Request, start: u64) -> bool {
    let mut out = [0; trimthuel::LINE_MAX];
    let length = trimthuel::answer(&crate::card::bytes(table, request), &mut out).unwrap_or(0);
    &out[..length] == format!("release {start}\n").as_bytes()
}

#[cfg(not(feature = "house"))]
fn house_says(_table: &Table, _request: &Request, _start: u64) -> bool {
    true
}

/// Every request tick of the sets with T0 in `from` ..= `to`, asked. Prints a line for each set,
/// its digest that of `digest.rs` with a word for each start in rising order of the tick; then the
/// counts and the time.
pub fn sweep(from: u64, to: u64) {
    let begun = Instant::now();
    let mut sweep = Sweep::default();
    let wanted = FIRST_PERIODS.filter(|first_period| (from..=to).contains(first_period));
    wanted.for_each(|first_period| sweep.set(first_period));
    println!("sets {} asks {}", sweep.sets, sweep.asks);
    println!("later {} refused {}", sweep.later, sweep.refused);
    println!("ESITforSNT differing {}", sweep.esit_differing);
    if cfg!(feature = "house") {
        println!("the project differing {}", sweep.house_differing);
    }
    println!("seconds {:.1}", begun.elapsed().as_secs_f64());
}

#[cfg(test)]
mod tests {
    use super::*;
    use crate::slow;
    use crate::types::Content;

    #[test]
    fn the_nine_published_answers() {
        for (first_period, tick, start) in ANSWERS {
            let (begin, request) = set(first_period).expect("fits");
            let table = at(&begin, tick);
            assert_eq!(table.clock, tick);
            assert_eq!(rules::ask(&table, &request), Ok(start), "{first_period}");
            assert_eq!(slow::least_start(&table, &request), Some(start));
        }
    }

    #[test]
    fn the_rows_of_table_2() {
        let rows = [
            (50, 9, 36, 1_800),
            (51, 9, 144, 6_120),
            (52, 10, 36, 4_680),
            (53, 10, 216, 19_080),
            (249, 48, 216, 29_880),
            (250, 48, 72, 9_000),
        ];
        for (first_period, c0, c3, t3) in rows {
            let (table, _) = set(first_period).expect("fits");
            let line = |slot: usize| match table.slots[slot] {
                Content::Running(run) => (run.need, u64::from(run.period)),
                _ => (0, 0),
            };
            assert_eq!(line(3), (c0, first_period));
            assert_eq!(line(0), (c3, t3));
        }
    }

    #[test]
    fn the_counts_of_the_paper() {
        assert_eq!(FIRST_PERIODS.map(round).sum::<u64>(), 4_549_320);
        let fitting = FIRST_PERIODS.filter(|t| set(*t).is_some());
        assert_eq!(fitting.count(), 184);
        let fit = FIRST_PERIODS.filter(|t| set(*t).is_some());
        assert_eq!(fit.map(round).sum::<u64>(), 3_229_200);
    }

    #[test]
    fn the_ninth_set_of_its_region_is_wide() {
        assert_eq!(round(181), 65_160);
    }
}
