//! Counts on both sides of the clock (R96), and beside another ground (R18, R48), with what ask and step answer; what is counted
//! (R97), and what an admission leaves of it (R42). The answers are worked out by hand from docs/RULES.md.

use crate::cases::{row, Line, LAST_CLOCK};
use crate::rules::{admit, ask, step};
use crate::types::{Content, Refusal, Request, Table, Wait, COUNTS};

/// R5: a sound line, which is owed a tick, and the same with one tick too many owed.
const SOUND: Line = (1, 16, 16, 0, 1);
const UNSOUND: Line = (1, 16, 16, 0, 2);
/// R25: the sound line with a T' below its T.
const SHRUNK: Line = (1, 16, 15, 0, 1);
/// R34: one of two such lines ends short.
const LATE: Line = (1, 16, 16, 15, 1);

/// R2, R81: the places of the idle count and of the departed one, behind those of the slots.
const IDLE: usize = 16;
const DEPARTED: usize = 17;

/// R7: 2^48 in digits of its own, as `LAST_CLOCK`.
const LAST: u64 = 281_474_976_710_656;

/// Number and place of ask's refusal and of step's; none where it grants.
type Refused = Option<(u8, usize)>;

struct Edge {
    name: &'static str,
    table: Table,
    request: Request,
    ask: Refused,
    step: Refused,
}

/// Lines from slot 0 up, and counts by their places.
fn edge(name: &'static str, clock: u64, lines: &[Line], counts: &[(usize, u64)]) -> Edge {
    let (mut table, request) = row(clock, lines, (1, 16));
    for (place, ticks) in counts {
        *table.counts.at_mut(*place) = *ticks;
    }
    let (ask, step) = (None, None);
    Edge {
        name,
        table,
        request,
        ask,
        step,
    }
}

impl Edge {
    fn refused(self, ask: Refused, step: Refused) -> Edge {
        Edge { ask, step, ..self }
    }

    fn both(self, refused: (u8, usize)) -> Edge {
        self.refused(Some(refused), Some(refused))
    }
}

/// R96: what adds up to the clock is in order, and a tick more is not.
fn sums() -> Vec<Edge> {
    let at = |name, counts: &[(usize, u64)]| edge(name, 10, &[SOUND], counts);
    let four = (4, 0);
    vec![
        at("nothing counted", &[]),
        at("equal, shared", &[(0, 4), (IDLE, 6)]),
        at("one more, idle", &[(0, 4), (IDLE, 7)]).both(four),
        at("one more, a slot's", &[(0, 5), (IDLE, 6)]).both(four),
        at("the idle count equal", &[(IDLE, 10)]),
        at("the idle count above", &[(IDLE, 11)]).both(four),
        at("the departed count equal", &[(DEPARTED, 10)]),
        at("the departed count above", &[(DEPARTED, 11)]).both(four),
        at("equal, all three", &[(0, 3), (IDLE, 3), (DEPARTED, 4)]),
        at("one more, departed", &[(0, 3), (IDLE, 3), (DEPARTED, 5)]).both(four),
        at("beside nothing, equal", &[(15, 10)]),
        at("beside nothing, above", &[(15, 11)]).both(four),
        edge("clock 0", 0, &[SOUND], &[]),
        edge("clock 0, one idle", 0, &[SOUND], &[(IDLE, 1)]).both(four),
        edge(
            "the last ask, equal",
            LAST_CLOCK,
            &[SOUND],
            &[(3, LAST_CLOCK)],
        ),
        edge(
            "the last ask, above",
            LAST_CLOCK,
            &[SOUND],
            &[(3, LAST_CLOCK + 1)],
        )
        .both(four),
    ]
}

/// R96: a sum that wraps would be 0, or no more than the clock.
fn wide_sums() -> Vec<Edge> {
    let at = |name, counts: &[(usize, u64)]| edge(name, 10, &[SOUND], counts).both((4, 0));
    let all = |ticks: u64| (0..COUNTS).map(move |place| (place, ticks));
    vec![
        at("two halves", &[(0, 1 << 63), (1, 1 << 63)]),
        at("two halves, one idle", &[(15, 1 << 63), (IDLE, 1 << 63)]),
        at(
            "two halves, none a slot's",
            &[(IDLE, 1 << 63), (DEPARTED, 1 << 63)],
        ),
        at("sixteen sixteenths", &Vec::from_iter(all(1 << 60).take(16))),
        at(
            "sixteen behind slot 1",
            &Vec::from_iter(all(1 << 60).skip(2)),
        ),
        at("2^64 - 1 and 1", &[(0, u64::MAX), (1, 1)]),
        at("1 and 2^64 - 1", &[(0, 1), (IDLE, u64::MAX)]),
        at("1 idle and 2^64 - 1", &[(IDLE, 1), (DEPARTED, u64::MAX)]),
        at("2^64 and the clock", &[(0, u64::MAX), (1, 11)]),
        at("2^64 - 1 alone", &[(7, u64::MAX)]),
        at("2^64 - 1 everywhere", &Vec::from_iter(all(u64::MAX))),
    ]
}

/// R18, R48: too many counts and another ground.
fn order() -> Vec<Edge> {
    let (over, four) = (&[(IDLE, 11)], Some((4, 0)));
    let at = |name, lines: &[Line]| edge(name, 10, lines, over);
    let (late, last) = (LAST_CLOCK + 1, [(IDLE, LAST + 1)]);
    let mut waiting = at("3", &[SOUND]).refused(Some((3, 9)), four);
    waiting.table.slots[9] = Content::Waiting(Wait {
        need: 1,
        period: 4,
        wait: 2,
    });
    let mut waiting_for_none = at("3 and a line", &[SOUND]).refused(Some((3, 9)), Some((4, 9)));
    waiting_for_none.table.slots[9] = Content::Waiting(Wait {
        need: 1,
        period: 4,
        wait: 0,
    });
    let mut no_need = at("6", &[SOUND]).both((4, 0));
    no_need.request.need = 0;
    vec![
        at("a line", &[SOUND, UNSOUND, UNSOUND]).both((4, 1)),
        edge("a line alone", 10, &[SOUND, UNSOUND], &[(IDLE, 10)]).both((4, 1)),
        edge("1 before them", late, &[], &[(IDLE, late + 1)]).refused(Some((1, 0)), four),
        edge("1 alone", late, &[], &[(IDLE, late)]).refused(Some((1, 0)), None),
        at("2", &[SOUND; 16]).refused(Some((2, 0)), four),
        waiting,
        waiting_for_none,
        at("5", &[SOUND, SHRUNK]).refused(four, four),
        edge("5 alone", 10, &[SOUND, SHRUNK], &[]).refused(Some((5, 1)), None),
        no_need,
        edge("15", LAST, &[], &last).refused(Some((1, 0)), Some((15, 0))),
        at("14", &[LATE, LATE]).both((4, 0)),
        edge("14 alone", 10, &[LATE, LATE], &[]).refused(Some((9, 0)), Some((14, 1))),
    ]
}

#[test]
fn every_stated_answer() {
    let refused = |refusal: Refusal| (refusal.number, refusal.place as usize);
    for edge in [sums(), wide_sums(), order()].into_iter().flatten() {
        let (table, request) = (&edge.table, &edge.request);
        assert_eq!(
            ask(table, request).err().map(refused),
            edge.ask,
            "{}",
            edge.name
        );
        assert_eq!(
            admit(table, request).err().map(refused),
            edge.ask,
            "{}",
            edge.name
        );
        assert_eq!(step(table).err().map(refused), edge.step, "{}", edge.name);
    }
}

/// The table after a step, and the counts that changed, by their places.
fn stepped(table: &Table) -> (Table, Vec<(usize, u64)>) {
    let (next, _) = step(table).expect("in order");
    let pairs = table.counts.all().into_iter().zip(next.counts.all());
    let changed = pairs.enumerate().filter(|(_, (old, new))| old != new);
    (
        next,
        changed.map(|(place, (_, new))| (place, new)).collect(),
    )
}

/// R97: one count rises by one, also where a period ends or a wait does.
#[test]
fn each_tick_is_counted_once() {
    // The second line's period ends in the first tick and in the third; the third line waits for two ticks.
    let lines = [(1, 4, 4, 0, 1), (1, 2, 2, 1, 0)];
    let mut table = edge("", 100, &lines, &[(0, 30), (1, 20), (5, 7), (IDLE, 40)]).table;
    table.slots[2] = Content::Waiting(Wait {
        need: 1,
        period: 9,
        wait: 2,
    });
    for wanted in [(0, 31), (1, 21), (2, 1), (1, 22)] {
        let changed;
        (table, changed) = stepped(&table);
        assert_eq!(changed, [wanted], "{}", table.clock);
    }
    let idle = edge("", 9, &[(1, 4, 4, 0, 0)], &[(0, 2), (IDLE, 7)]).table;
    assert_eq!(stepped(&idle).1, [(IDLE, 8)]);
}

/// R42: the new line's slot alone, whatever stood beside it while it held nothing; a stretched line keeps its own.
#[test]
fn an_admission_sets_one_count_to_0() {
    // 1 to 18 add up to 171.
    let counts: Vec<(usize, u64)> = (0..COUNTS).map(|place| (place, 1 + place as u64)).collect();
    let case_a = [(8, 16, 32, 8, 0), (8, 16, 16, 8, 8)];
    for (lines, clock) in [(&case_a[..], 171), (&[SOUND; 2][..], 200)] {
        let Edge { table, request, .. } = edge("", clock, lines, &counts);
        let (_, next) = admit(&table, &request).expect("in order");
        let mut wanted = table.counts;
        wanted.had[2] = 0;
        assert_eq!(next.counts, wanted);
    }
}
