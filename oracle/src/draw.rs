//! Tables and requests drawn from the generator, for tests, vectors and histories. They have no counts, no line that leaves and no last
//! slot: `draw_counts.rs`, `draw_leaving.rs` and `draw_last.rs` draw those.

use crate::random::Random;
use crate::rules;
use crate::types::{
    Content, Follows, Request, Run, Table, Wait, EMPTY, LAST_ASK, LAST_TICK, NO_COUNTS, SLOTS,
    ZEROS,
};

/// Common multiples with many divisors; most tables take their periods from one of these.
const BASES: [u64; 12] = [
    60, 240, 720, 1_680, 2_520, 5_040, 10_080, 27_720, 30_030, 50_400, 65_536, 98_280,
];

/// The same for loads in whole parts: the frame divides parts × span × factor.
const SPANS: [u64; 8] = [12, 24, 60, 72, 120, 210, 360, 840];

/// Spans for frames up to 997,920.
const WIDE_SPANS: [u64; 4] = [5_040, 9_240, 12_600, 13_860];

/// Frames near the limit, the last exactly at it.
const WIDE_BASES: [u64; 5] = [720_720, 831_600, 997_920, 999_999, 1_000_000];

/// The greatest divisor of `base` that is at most `most` and fits sixteen bits.
pub fn divisor(base: u64, most: u64) -> u16 {
    let mut candidate = most.clamp(1, 65_535);
    while base % candidate != 0 {
        candidate -= 1;
    }
    candidate as u16
}

/// A sound line at the beginning of its period.
fn fresh(need: u16, period: u16) -> Run {
    Run {
        need,
        period,
        age: 0,
        remaining: need,
        follows: Follows::Renews,
    }
}

/// Up to `count` lines with periods dividing `base` whose load together is at most 1.
fn lines(random: &mut Random, base: u64, count: u64) -> Vec<Run> {
    let most = (base >> random.below(5)).clamp(2, 65_535);
    let mut left = base;
    let mut drawn = Vec::new();
    for index in 0..count {
        let period = divisor(base, 1 + random.below(most));
        let unit = base / u64::from(period);
        let room = left / unit;
        if room == 0 {
            continue;
        }
        let all = index + 1 == count && random.below(4) > 0;
        let even = (2 * room / (count - index)).clamp(1, room);
        let need = if all { room } else { 1 + random.below(even) };
        left -= need * unit;
        drawn.push(fresh(need as u16, period));
    }
    drawn
}

/// Lays the lines into slots from 0 up, now and then with empty slots between.
fn lay(random: &mut Random, drawn: &[Run]) -> Table {
    let mut table = EMPTY;
    let holes = random.below(3) == 0;
    let mut slot = 0;
    for (index, run) in drawn.iter().enumerate() {
        let behind = drawn.len() - index;
        if holes && slot + behind < SLOTS {
            slot += random.below((SLOTS - slot - behind) as u64) as usize;
        }
        table.slots[slot] = Content::Running(*run);
        slot += 1;
    }
    table
}

/// Runs the table for some ticks, as the published task sets are run before the request. What the ticks count, and who got the last, is
/// left out: the clock is drawn after them, and a card carries neither.
fn run_for(table: Table, ticks: u64) -> Table {
    let mut now = table;
    for _ in 0..ticks {
        match rules::step(&now) {
            Ok((next, _)) => now = next,
            Err(_) => break,
        }
    }
    now.counts = NO_COUNTS;
    now.without_last()
}

/// Stretched periods that divide `base`, between T and five times T.
fn stretch(random: &mut Random, base: u64, table: &Table, request: &mut Request) {
    let often = 1 + random.below(4);
    for (slot, run) in table.running() {
        let period = u64::from(run.period);
        let longer = random.below(4) < often;
        let most = if longer {
            2 * period + random.below(3 * period + 1)
        } else {
            period
        };
        request.stretched[slot] = divisor(base, most);
    }
}

/// Ages and remainings that no run has led to, then less remaining until the sum of R29, taken times
/// `base`, is not above 0; now and then it is left as drawn.
fn invent(random: &mut Random, base: u64, table: &mut Table, request: &Request) {
    let mut sum = 0;
    for slot in 0..SLOTS {
        if let Content::Running(run) = &mut table.slots[slot] {
            run.age = random.small(run.period.into());
            run.remaining = random.small(u64::from(run.need) + 1);
            sum += lag(base, run, request.stretched[slot]);
        }
    }
    if random.below(12) == 0 {
        return;
    }
    for content in &mut table.slots {
        if let Content::Running(run) = content {
            let over = (sum.max(0) as u64).div_ceil(base);
            let less = over.min(run.remaining.into());
            run.remaining -= less as u16;
            sum -= (less * base) as i64;
        }
    }
}

/// One line's term of the sum of R29, taken times `base`, a multiple of T'.
fn lag(base: u64, run: &Run, stretched: u16) -> i64 {
    let owed = i64::from(run.remaining) - i64::from(run.need);
    let share = u64::from(run.need) * u64::from(run.age) * (base / u64::from(stretched));
    owed * base as i64 + share as i64
}

/// What R28 leaves for a new line, times `base`.
pub fn room(base: u64, table: &Table, request: &Request) -> u64 {
    let share = |(slot, run): (usize, &Run)| {
        u64::from(run.need) * (base / u64::from(request.stretched[slot]).max(1))
    };
    base.saturating_sub(table.running().map(share).sum::<u64>())
}

/// A new line that takes all or nearly all the load that is left.
pub fn newcomer(random: &mut Random, base: u64, room: u64, request: &mut Request) {
    let most = [6, 30, 62, 4_096][random.below(4) as usize];
    request.period = divisor(base, 2 + random.below(most));
    for _ in 0..6 {
        if base / u64::from(request.period) <= room {
            break;
        }
        request.period = divisor(base, u64::from(request.period) * (2 + random.below(6)));
    }
    let full = room / (base / u64::from(request.period));
    let need = match random.below(8) {
        0 => 1 + random.below(full.max(1)),
        1 if full > 1 => full - 1,
        2 if random.below(4) == 0 => full + 1,
        _ => full.max(1),
    };
    request.need = need.min(65_535) as u16;
}

/// A clock: small, anywhere, or the greatest at which asking is possible.
pub fn clock(random: &mut Random) -> u64 {
    match random.below(4) {
        0 => random.below(1_000),
        1 => LAST_ASK - random.below(3),
        _ => random.wide(LAST_ASK + 1),
    }
}

/// A table and a request near full load over one common multiple.
fn over_base(random: &mut Random, base: u64) -> (Table, Request) {
    let most = [2, 2, 5, 15][random.below(4) as usize];
    let count = 1 + random.below(most);
    let drawn = lines(random, base, count);
    let mut request = ZEROS;
    let mut table = lay(random, &drawn);
    let real = random.below(2) == 0;
    if real {
        table = run_for(table, random.below(2 * base.min(1_500)));
    }
    stretch(random, base, &table, &mut request);
    if !real {
        invent(random, base, &mut table, &request);
    }
    table.clock = clock(random);
    let left = room(base, &table, &request);
    newcomer(random, base, left, &mut request);
    (table, request)
}

/// Loads in whole parts that fill the pump exactly, part of the lines stretched by one factor,
/// and a new line for exactly what is left. Lines that owe nothing are stretched the most: then
/// starts later than the clock are frequent.
fn exact(random: &mut Random, spans: &[u64]) -> (Table, Request) {
    let parts = [4, 5, 6, 8, 10, 12][random.below(6) as usize];
    let span = spans[random.below(spans.len() as u64) as usize];
    let times = 2 + random.below(5);
    let base = parts * span * times;
    let drawn = parted_lines(random, parts, span);
    let mut table = lay(random, &drawn);
    let real = random.below(4) > 0;
    if real {
        table = run_for(table, random.below(2 * parts * span.min(200)));
    } else {
        let request = stretched_by(random, base, times, &table);
        invent(random, base, &mut table, &request);
    }
    let request = rest(random, base, times, &table);
    table.clock = clock(random);
    (table, request)
}

/// Part of the lines stretched by one factor, and a new line for exactly the load that this leaves, or a tick less.
pub fn rest(random: &mut Random, base: u64, times: u64, table: &Table) -> Request {
    let mut request = stretched(random, base, times, table);
    let left = room(base, table, &request);
    let common = common_divisor(base, left);
    request.need = (left / common) as u16;
    request.period = (base / common).min(65_535) as u16;
    if random.below(8) == 0 {
        request.need = request.need.saturating_sub(1).max(1);
    }
    request
}

/// Part of the lines stretched by one factor; at least one, where that is needed to leave room for a new line.
pub fn stretched(random: &mut Random, base: u64, times: u64, table: &Table) -> Request {
    let mut request = stretched_by(random, base, times, table);
    if room(base, table, &request) == 0 {
        stretch_first(base, times, table, &mut request);
    }
    request
}

/// Two or more lines with periods of `parts` times a divisor of `span`, load together 1.
fn parted_lines(random: &mut Random, parts: u64, span: u64) -> Vec<Run> {
    let count = 2 + random.below((parts - 1).min(5));
    let mut left = parts;
    let mut drawn = Vec::new();
    for index in 0..count {
        let most = left.saturating_sub(count - 1 - index);
        if most == 0 {
            break;
        }
        let last = index + 1 == count;
        let share = if last { most } else { 1 + random.below(most) };
        let times = u64::from(divisor(span, 2 + random.below(span.min(900))));
        drawn.push(fresh((share * times) as u16, (parts * times) as u16));
        left -= share;
    }
    drawn
}

/// T × times where that divides the base, else T.
fn longer(base: u64, period: u16, times: u64) -> u16 {
    let longer = u64::from(period) * times;
    if base % longer.max(1) == 0 {
        longer.min(65_535) as u16
    } else {
        period
    }
}

/// T' = T × times for seven in eight of the lines that owe nothing and one in eight of the others; R25: T' = T for those that leave.
fn stretched_by(random: &mut Random, base: u64, times: u64, table: &Table) -> Request {
    let mut request = ZEROS;
    for (slot, run) in table.running() {
        let odds = if run.remaining == 0 { 7 } else { 1 };
        let longer_too = random.below(8) < odds && !run.leaves();
        let times = if longer_too { times } else { 1 };
        request.stretched[slot] = longer(base, run.period, times);
    }
    request
}

/// T' = T × times for the lowest line that renews and of which that divides the base.
fn stretch_first(base: u64, times: u64, table: &Table, request: &mut Request) {
    let grows =
        |(_, run): &(usize, &Run)| !run.leaves() && longer(base, run.period, times) > run.period;
    if let Some((slot, run)) = table.running().find(grows) {
        request.stretched[slot] = longer(base, run.period, times);
    }
}

fn common_divisor(mut a: u64, mut b: u64) -> u64 {
    while b != 0 {
        (a, b) = (b, a % b);
    }
    a
}

/// A table that mostly passes all refusals, near full load.
pub fn near_full(random: &mut Random) -> (Table, Request) {
    if random.below(3) > 0 {
        return exact(random, &SPANS);
    }
    let base = BASES[random.below(BASES.len() as u64) as usize];
    over_base(random, base)
}

/// The same with frames up to 1,000,000.
pub fn wide(random: &mut Random) -> (Table, Request) {
    if random.below(2) == 0 {
        return exact(random, &WIDE_SPANS);
    }
    let base = WIDE_BASES[random.below(WIDE_BASES.len() as u64) as usize];
    over_base(random, base)
}

/// The same with small numbers only, for tests that look at every tick many times.
#[cfg(test)]
pub fn small(random: &mut Random) -> (Table, Request) {
    if random.below(3) > 0 {
        return exact(random, &[2, 3, 4, 6]);
    }
    let base = [24, 48, 60, 96, 120][random.below(5) as usize];
    over_base(random, base)
}

/// A sixteen-bit number that is often at an edge.
fn edge(random: &mut Random) -> u16 {
    match random.below(8) {
        0 => 0,
        1 => 1,
        2 => 65_535,
        3 => random.small(8),
        4 => random.small(300),
        _ => random.small(65_536),
    }
}

/// Any content, sound or not.
fn content(random: &mut Random) -> Content {
    let (need, period) = (edge(random), edge(random));
    match random.below(16) {
        0..=7 => Content::Running(Run {
            need,
            period,
            age: edge(random),
            remaining: edge(random),
            follows: Follows::Renews,
        }),
        8 => Content::Waiting(Wait {
            need,
            period,
            wait: edge(random),
        }),
        _ => Content::Nothing,
    }
}

/// One of the slots whose content answers yes, or any slot where none does.
#[cfg(any(test, feature = "house"))]
pub fn slot(random: &mut Random, table: &Table, question: impl Fn(&Content) -> bool) -> usize {
    let slots = (0..SLOTS).filter(|slot| question(&table.slots[*slot]));
    let slots: Vec<usize> = slots.collect();
    let any = random.below(SLOTS as u64) as usize;
    let drawn = random.below(slots.len() as u64) as usize;
    slots.get(drawn).copied().unwrap_or(any)
}

/// R7: a clock at the limits, or any.
pub fn any_clock(random: &mut Random) -> u64 {
    match random.below(8) {
        0 => LAST_ASK,
        1 => LAST_ASK + 1,
        2 => LAST_TICK - random.below(2),
        3 => LAST_TICK + random.below(2),
        4 => u64::MAX,
        5 => random.value() << 33 | random.value(),
        _ => random.below(1_000_000),
    }
}

/// Any table and request whatever.
pub fn any(random: &mut Random) -> (Table, Request) {
    let (mut table, mut request) = (EMPTY, ZEROS);
    table.clock = any_clock(random);
    for slot in 0..SLOTS {
        table.slots[slot] = content(random);
        request.stretched[slot] = edge(random);
    }
    (request.need, request.period) = (edge(random), edge(random));
    (table, request)
}

/// A table and a request that are otherwise near full load, with one number changed.
pub fn damaged(random: &mut Random) -> (Table, Request) {
    let (mut table, mut request) = near_full(random);
    damage(random, &mut table, &mut request);
    (table, request)
}

/// One number of a running line, of the request or of the clock is changed, if a line runs.
pub fn damage(random: &mut Random, table: &mut Table, request: &mut Request) {
    let slots: Vec<usize> = table.running().map(|(slot, _)| slot).collect();
    if slots.is_empty() {
        return;
    }
    let slot = slots[random.below(slots.len() as u64) as usize];
    let number = match random.below(3) {
        0 => edge(random),
        _ => random.small(200),
    };
    if let Content::Running(run) = &mut table.slots[slot] {
        match random.below(14) {
            0 => run.need = number,
            1 => run.period = number,
            2 => run.age = number,
            3 => run.remaining = number,
            4 => run.remaining = run.need,
            5 => run.remaining = run.remaining.saturating_add(1),
            6 => run.remaining = run.need.saturating_add(1),
            7 => run.age = run.period.saturating_sub(random.small(2)),
            8 => request.stretched[slot] = run.period.saturating_sub(random.small(2)),
            9 => request.stretched[slot] = number,
            10 => request.need = number,
            11 => request.period = number,
            12 => request.need = request.period.saturating_add(random.small(2)),
            _ => table.clock = any_clock(random),
        }
    }
}
