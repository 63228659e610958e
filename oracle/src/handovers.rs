//! How often the pump is handed over on the published task sets, T3 ticks of each from time 0: by the paper's rule for equal ends, which
//! looks at the slots alone, and by R44, by which the valve that is open stays open.

use crate::digits::grouped;
use crate::published;
use crate::rules;
use crate::types::{Refusal, Table};

/// What the pump goes by.
type Step = fn(&Table) -> Result<(Table, Option<usize>), Refusal>;

/// The slots that run from a table on, tick by tick, up to so many ticks.
fn ran(table: &Table, ticks: u64, step: Step) -> Vec<Option<usize>> {
    let mut now = *table;
    let tick = |_| {
        let (next, slot) = step(&now).ok()?;
        now = next;
        Some(slot)
    };
    (0..ticks).map_while(tick).collect()
}

/// The ticks that go to another slot than the tick before them. A tick of nobody is no slot's: neither it nor the next one is counted.
fn handovers(ran: &[Option<usize>]) -> u64 {
    let handed = |pair: &&[Option<usize>]| matches!(pair, [Some(one), Some(other)] if one != other);
    ran.windows(2).filter(handed).count() as u64
}

/// The hand-overs of some ticks by both rules.
#[derive(Clone, Copy, Debug, Default, PartialEq, Eq)]
struct Counted {
    ticks: u64,
    before: u64,
    after: u64,
}

impl Counted {
    /// The set of T0, or none where T3 does not fit.
    fn of_set(first_period: u64) -> Option<Counted> {
        let (begin, _) = published::set(first_period)?;
        let ticks = published::round(first_period);
        let count = |step| handovers(&ran(&begin, ticks, step));
        Some(Counted {
            ticks,
            before: count(published::step),
            after: count(rules::step),
        })
    }

    fn and(self, other: Counted) -> Counted {
        Counted {
            ticks: self.ticks + other.ticks,
            before: self.before + other.before,
            after: self.after + other.after,
        }
    }

    fn row(&self, name: &str) -> String {
        let (ticks, before, after) = (self.ticks, self.before, self.after);
        let cells = [ticks, before, after].map(grouped).join(" | ");
        format!("| {name} | {cells} |\n")
    }
}

/// In how many of the sets there are fewer hand-overs than before, as many, and more.
fn compared(sets: &[Counted]) -> [usize; 3] {
    let count = |question: fn(&&Counted) -> bool| sets.iter().filter(question).count();
    [
        count(|set| set.after < set.before),
        count(|set| set.after == set.before),
        count(|set| set.after > set.before),
    ]
}

/// The figure, as Markdown.
pub fn figure() -> String {
    let sets: Vec<(u64, Counted)> = published::FIRST_PERIODS
        .filter_map(|first_period| Some((first_period, Counted::of_set(first_period)?)))
        .collect();
    let shown = sets.iter().filter(|(t0, _)| published::SHOWN.contains(t0));
    let rows: String = shown.map(|(t0, set)| set.row(&t0.to_string())).collect();
    let counted: Vec<Counted> = sets.iter().map(|(_, set)| *set).collect();
    let all = counted.iter().copied().reduce(Counted::and);
    let all = all.unwrap_or_default().row(&format!("all {}", sets.len()));
    let [fewer, same, more] = compared(&counted);
    format!(
        "| T0 | ticks | hand-overs, equal ends to the lowest slot | by R44 |\n|---|---|---|---|\n{rows}{all}\n\
         Sets with fewer than before {fewer}, with as many {same}, with more {more}.\n"
    )
}

#[cfg(test)]
mod tests {
    use super::*;
    use crate::cases;

    #[test]
    fn a_tick_for_another_slot_is_counted() {
        let list = |marks: &str| -> Vec<Option<usize>> {
            let slot = |mark: char| mark.to_digit(10).map(|slot| slot as usize);
            marks.chars().map(slot).collect()
        };
        for (marks, wanted) in [
            ("", 0),
            ("3", 0),
            ("333", 0),
            ("30", 1),
            ("0110", 2),
            ("0101", 3),
            // A dot is a tick of nobody.
            ("0.0", 0),
            ("0.1", 0),
            (".1.2.", 0),
            ("01.10", 2),
        ] {
            assert_eq!(handovers(&list(marks)), wanted, "{marks}");
        }
    }

    /// Two lines whose periods always end together: the lower slot is first in each, or the one that ran last.
    #[test]
    fn a_valve_that_stays_open() {
        let (table, _) = cases::row(0, &[(2, 6, 6, 0, 2), (4, 6, 6, 0, 4)], (1, 1));
        let marks = |step| {
            let slots = ran(&table, 24, step);
            let mark = |slot: &Option<usize>| slot.map_or('.', |slot| ['0', '1'][slot]);
            (
                slots.iter().map(mark).collect::<String>(),
                handovers(&slots),
            )
        };
        let before = marks(published::step);
        assert_eq!(before, ("001111001111001111001111".into(), 7));
        let after = marks(rules::step);
        assert_eq!(after, ("001111111100001111111100".into(), 4));
    }

    /// T0 = 150: every tick is some line's, each line has its needs by either rule, and one hand-over is saved.
    #[test]
    fn both_rules_on_one_set() {
        let (begin, _) = published::set(150).expect("fits");
        let lists = [published::step as Step, rules::step].map(|step| ran(&begin, 1_800, step));
        for list in &lists {
            let had =
                [0, 1, 2, 3].map(|slot| list.iter().filter(|ran| **ran == Some(slot)).count());
            // T3 is 1,800: τ3 (12, 1800), τ2 (72, 180), τ1 (48, 120) and τ0 (29, 150).
            assert_eq!(had, [12, 10 * 72, 15 * 48, 12 * 29]);
        }
        let counted = Counted {
            ticks: 1_800,
            before: 38,
            after: 37,
        };
        let [before, after] = lists.map(|list| handovers(&list));
        assert_eq!((before, after), (counted.before, counted.after));
        assert_eq!(Counted::of_set(150), Some(counted));
    }

    #[test]
    fn fewer_the_same_and_more() {
        let set = |before, after| Counted {
            ticks: 9,
            before,
            after,
        };
        let sets = [
            set(3, 2),
            set(3, 3),
            set(3, 4),
            set(9, 0),
            set(0, 9),
            set(1, 0),
        ];
        assert_eq!(compared(&sets), [3, 1, 2]);
        let all = sets.into_iter().reduce(Counted::and).expect("some");
        assert_eq!((all.ticks, all.before, all.after), (54, 19, 18));
        assert_eq!(all.row("all"), "| all | 54 | 19 | 18 |\n");
    }
}
