//! R67: cases A to M, and a first few inputs on both sides of a limit; `edges.rs` has the others.

use crate::types::{Content, Follows, Refusal, Request, Run, Table, EMPTY, ZEROS};

/// R7: 2^48 − 65,536 in digits of its own, so that the rows hold the program's limit to it.
pub const LAST_CLOCK: u64 = 281_474_976_645_120;

/// One row: a table, a request and the answer of ask.
pub struct Case {
    pub name: &'static str,
    pub table: Table,
    pub request: Request,
    pub answer: Result<u64, Refusal>,
}

/// R67: a line as (C, T, T', age, remaining).
pub type Line = (u16, u16, u16, u16, u16);

/// R67: the table and the request of a row, lines from slot 0 up, all of which renew.
pub fn row(clock: u64, lines: &[Line], new: (u16, u16)) -> (Table, Request) {
    let (mut table, mut request) = (EMPTY, ZEROS);
    table.clock = clock;
    (request.need, request.period) = new;
    for (slot, (need, period, stretched, age, remaining)) in lines.iter().copied().enumerate() {
        table.slots[slot] = Content::Running(Run {
            need,
            period,
            age,
            remaining,
            follows: Follows::Renews,
        });
        request.stretched[slot] = stretched;
    }
    (table, request)
}

/// A row with its answer.
pub fn case(
    name: &'static str,
    clock: u64,
    lines: &[Line],
    new: (u16, u16),
    answer: Result<u64, Refusal>,
) -> Case {
    let (table, request) = row(clock, lines, new);
    Case {
        name,
        table,
        request,
        answer,
    }
}

impl Case {
    /// R99: the same, but that the lines of these slots leave.
    pub fn leaving(mut self, slots: &[usize]) -> Case {
        for slot in slots {
            if let Content::Running(run) = &mut self.table.slots[*slot] {
                run.follows = Follows::Leaves;
            }
        }
        self
    }
}

/// R17: the answer that is a refusal.
pub fn refused(number: u8, place: usize) -> Result<u64, Refusal> {
    Err(Refusal::at(number, place))
}

/// R103: the answer that is refusal 10, with the first tick that is short, and by how much.
pub fn late(tick: u64, excess: u64) -> Result<u64, Refusal> {
    Err(Refusal::late(tick, excess))
}

const D_LINES: [Line; 2] = [(7, 28, 28, 20, 7), (8, 16, 32, 8, 0)];

/// R67: the table of cases.
pub fn letters() -> Vec<Case> {
    let (half, four) = ((8, 16, 16, 0, 8), (1, 4));
    let e = [(1, 4, 4, 0, 1), (16, 64, 64, 52, 8), (16, 32, 64, 12, 0)];
    let a = [(8, 16, 32, 8, 0), (8, 16, 16, 8, 8)];
    let b = [(8, 16, 32, 6, 2), (12, 24, 24, 6, 12)];
    let j = [(5, 20, 20, 17, 5), (10, 20, 20, 0, 0)];
    let k = [(1, 64, 64, 0, 1)];
    vec![
        case("A", 8, &a, four, Ok(13)),
        case("B", 6, &b, four, Ok(6)),
        case("C", 0, &[], (3, 5), Ok(0)),
        case("D", 100, &D_LINES, (2, 4), Ok(105)),
        case("E", 40, &e, four, Ok(45)),
        case("F", 0, &[(4, 8, 8, 4, 2)], (1, 2), Ok(0)),
        case("G", 0, &[(4, 8, 8, 4, 3)], (1, 2), refused(9, 0)),
        case("H", 0, &[half], (8, 16), Ok(0)),
        case("I", 0, &[half], (9, 16), refused(8, 0)),
        case("J", 0, &j, four, late(3, 2)),
        case("K", 0, &k, (1, 15_625), Ok(0)),
        case("L", 0, &k, (1, 15_629), refused(7, 0)),
        case("M", 100, &D_LINES, (3, 6), Ok(104)),
    ]
}

/// R21, R22, R24, R25, R26: the clock, the slots, an age, a T' and the new line at their limits.
fn boundaries() -> Vec<Case> {
    let (limit, over) = (LAST_CLOCK, LAST_CLOCK + 1);
    let mut all = Vec::new();
    all.push(case("clock", limit, &D_LINES, (2, 4), Ok(limit + 5)));
    all.push(case("clock over", over, &D_LINES, (2, 4), refused(1, 0)));
    let half = (8, 16);
    all.push(case("T' = T", 9, &[(8, 16, 16, 0, 8)], half, Ok(9)));
    let short = [(8, 16, 15, 0, 8)];
    all.push(case("T' = T - 1", 9, &short, half, refused(5, 0)));
    let second = [(1, 16, 16, 0, 1), (1, 16, 15, 0, 1), (1, 16, 15, 0, 1)];
    all.push(case("T' in slot 1", 9, &second, half, refused(5, 1)));
    all.push(case("age T - 1", 9, &[(8, 16, 16, 15, 0)], half, Ok(9)));
    let old = [(8, 16, 16, 16, 0)];
    all.push(case("age T", 9, &old, half, refused(4, 0)));
    all.push(case("empty, Cn 0", 0, &[], (0, 5), refused(6, 0)));
    all.push(case("empty, Cn over Tn", 0, &[], (6, 5), refused(6, 0)));
    all.push(case("empty, Cn = Tn", 0, &[], (5, 5), Ok(0)));
    all.push(case("empty, zeros", 0, &[], (0, 0), refused(6, 0)));
    all.push(case(
        "full",
        0,
        &[(1, 60, 60, 0, 0); 16],
        half,
        refused(2, 0),
    ));
    all.push(case("fifteen", 0, &[(1, 60, 60, 0, 0); 15], half, Ok(0)));
    all
}

/// Every row with its answer.
pub fn all() -> Vec<Case> {
    letters().into_iter().chain(boundaries()).collect()
}

/// R59: case A's card.
pub const CARD_A: [u8; 40] = [
    0x43, 0x4B, 0x08, 0x00, 0x00, 0x00, 0x00, 0x00, 0x00, 0x00, 0x54, 0x42, 0x08, 0x00, 0x10, 0x00,
    0x20, 0x00, 0x08, 0x00, 0x00, 0x00, 0x54, 0x42, 0x08, 0x00, 0x10, 0x00, 0x10, 0x00, 0x08, 0x00,
    0x08, 0x00, 0x52, 0x51, 0x01, 0x00, 0x04, 0x00,
];
