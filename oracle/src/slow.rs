//! Algorithm 2 of the published paper (its title stands in published.rs): trial and error.
//!
//! The starts are tried one after the other from the clock on: the pump runs to the last end, and the
//! first start after which nothing ends short is the answer.
//!
//! Nothing of the demand or the excess is used here: only admission at a tried start (R42, R43) and
//! the step of the pump (R48), whose refusal 14 is a missed end (R34).

use crate::rules;
use crate::types::{Request, Table};

/// R14 in another way: the least start from the clock on after which no period ends short up to the
/// last end, for a table that ask does not refuse.
///
/// None when no start up to the last end will do; for a table that passes refusals 1 to 10 this
/// does not happen, as the new line then begins only where the run ends.
pub fn least_start(table: &Table, request: &Request) -> Option<u64> {
    let last_end = rules::last_end_of(table, request);
    (table.clock..=last_end).find(|start| runs_smoothly(table, request, *start, last_end))
}

/// R103, R104 in another way: admitted at the last end, the new line has no part in what is before it. The tick at which a period
/// ends short first, and how many ticks are then still owed to those that end with it, of which one has got the tick.
#[cfg(test)]
fn first_short(table: &Table, request: &Request) -> Option<(u64, u64)> {
    let last_end = rules::last_end_of(table, request);
    let mut now = rules::admitted(table, request, last_end);
    while now.clock < last_end {
        match rules::step(&now) {
            Ok((next, _)) => now = next,
            Err(_) => {
                let ending = now.running().filter(|(_, run)| run.age + 1 == run.period);
                let owed: u64 = ending.map(|(_, run)| u64::from(run.remaining)).sum();
                return Some((now.clock + 1, owed - 1));
            }
        }
    }
    None
}

/// Admits at the tried start and simulates from the clock to the last end.
fn runs_smoothly(table: &Table, request: &Request, start: u64, last_end: u64) -> bool {
    let mut now = rules::admitted(table, request, start);
    while now.clock < last_end {
        match rules::step(&now) {
            Ok((next, _)) => now = next,
            Err(_) => return false,
        }
    }
    true
}

#[cfg(test)]
mod tests {
    use super::*;
    use crate::draw_last;
    use crate::draw_late;
    use crate::draw_leaving;
    use crate::edges;
    use crate::random::Random;
    use crate::types::Refusal;

    #[test]
    fn equal_to_ask_on_the_cases() {
        for case in edges::stated() {
            if let Ok(start) = case.answer {
                let tried = least_start(&case.table, &case.request);
                assert_eq!(tried, Some(start), "{}", case.name);
            }
        }
    }

    #[test]
    fn equal_to_ask_on_random_tables() {
        let mut random = Random::new(21);
        let (mut answered, mut later) = (0, 0);
        for _ in 0..20_000 {
            let (mut table, request) = draw_leaving::small(&mut random);
            // R107: whoever ran last, the tried starts are smooth or not as before.
            draw_last::any(&mut random, &mut table);
            let Ok(start) = rules::ask(&table, &request) else {
                continue;
            };
            assert_eq!(least_start(&table, &request), Some(start), "{table:?}");
            answered += 1;
            later += u64::from(start > table.clock);
        }
        assert!(answered > 10_000 && later > 1_000, "{answered} {later}");
    }

    /// The refusal of ask where that is 10.
    fn late(table: &Table, request: &Request) -> Option<Refusal> {
        let refusal = rules::ask(table, request).err();
        refusal.filter(|refusal| refusal.number == 10)
    }

    /// R103: the lines alone miss an end for the first time at that tick, by that much.
    fn misses_as_told(table: &Table, request: &Request, refusal: Refusal) {
        let told = (refusal.tick, refusal.excess);
        assert_eq!(first_short(table, request), Some(told), "{table:?}");
    }

    #[test]
    fn refusal_ten_on_the_cases() {
        for case in edges::stated() {
            match (late(&case.table, &case.request), case.answer) {
                (Some(refusal), _) => misses_as_told(&case.table, &case.request, refusal),
                (None, Ok(_)) => assert_eq!(first_short(&case.table, &case.request), None),
                _ => {}
            }
        }
    }

    #[test]
    fn refusal_ten_means_that_the_lines_alone_miss_an_end_by_as_much() {
        let mut random = Random::new(22);
        let mut seen = 0;
        for round in 0..20_000 {
            let (mut table, request) = match round % 4 {
                0 => draw_late::late(&mut random),
                _ => draw_leaving::small(&mut random),
            };
            draw_last::any(&mut random, &mut table);
            if let Some(refusal) = late(&table, &request) {
                misses_as_told(&table, &request, refusal);
                seen += 1;
            }
        }
        assert!(seen > 1_000, "{seen}");
    }

    /// R104: the pump goes on from the table as it is, each line with its own period.
    #[test]
    fn a_pump_that_goes_on_ends_a_period_short_by_then() {
        let mut random = Random::new(23);
        let mut sooner = 0;
        for _ in 0..5_000 {
            let (table, request) = draw_late::late(&mut random);
            let Some(refusal) = late(&table, &request) else {
                continue;
            };
            let mut now = table;
            let short = loop {
                match rules::step(&now) {
                    Ok((next, _)) => now = next,
                    Err(short) => break short.number,
                }
            };
            assert_eq!(short, 14);
            assert!(now.clock < refusal.tick);
            sooner += u64::from(now.clock + 1 < refusal.tick);
        }
        assert!(sooner > 100, "{sooner}");
    }
}
