//! The rules of docs/RULES.md: refusals 1 to 10 in their order (R18), by how much 10 is late (R103), ask and admit; in `step.rs`
//! what the pump does from tick to tick.
//!
//! Nothing here computes a start by a formula. The excess is summed from its definition for one
//! tick after the other, and the starts are tried one after the other. Times are counted from
//! t0, the clock at the request: a start of 0 is the clock itself.
//!
//! # Why finitely many ticks are enough
//!
//! R13 looks at every tick, however late. Let F be the frame, L the last end, r a start,
//! M = max(L, r), and t ≥ M. Every running line is past its first end and the new line has started,
//! so from t to t + F the whole periods of a line that renews rise by exactly F / T' (F is a multiple of
//! T', and ⌊(x + F) / T'⌋ = ⌊x / T'⌋ + F / T'), those of the new line by exactly F / Tn, and the demand
//! of a line that leaves not at all. The demand therefore rises by at most F × load, and the excess by at
//! most F × (load − 1), which is not above 0 once R28 is passed. So
//! excess(t + F) ≤ excess(t) for every t ≥ M: an excess above 0 anywhere from M + F on would stand
//! already one frame earlier, and step by step in M .. M + F − 1. Looking at every tick of
//! 0 .. M + F − 1 settles all t. For the running lines alone (R30) the same holds with
//! M = L, their own load being no greater.
//!
//! # Why the search for a start ends
//!
//! Once R28, R29 and R30 are passed, the start r = L is smooth, so at most L + 1 starts are tried.
//! Before L the new line demands nothing and the running lines alone have no excess above 0 (R30).
//! For t ≥ L, dropping the floor only adds: a running line demands at most
//! c + C × (t − (T' − a)) / T' = (c − C + C × a / T') + t × C / T' (one that leaves demands c, the first
//! summand alone), and the new line at most (t − r) × Cn / Tn ≤ t × Cn / Tn. The brackets sum to at most
//! 0 (R29), the rest to at most t × load ≤ t (R28). The search does not use this; it only ends because of
//! it, and the answer fits sixteen bits as T' − a does.

mod step;

pub use step::step;
#[cfg(test)]
pub use step::ticked;
#[cfg(any(test, feature = "house"))]
pub use step::{first_to_end, lamp, leave, ready};

use crate::types::{
    Content, Follows, Refusal, Request, Run, Table, Wait, FRAME_LIMIT, LAST_ASK, SLOTS,
};

/// A running line under a request: the line with its T'.
#[derive(Clone, Copy, Debug)]
struct Stretched {
    slot: usize,
    run: Run,
    stretched: u16,
}

impl Stretched {
    /// R9, counted from t0. Refusals 4 and 5 are passed, so a < T ≤ T'.
    fn first_end(&self) -> usize {
        usize::from(self.stretched).saturating_sub(usize::from(self.run.age))
    }

    /// R9, counted from t0: every T' ticks an end, or the first alone.
    fn ends_before(&self, ticks: usize) -> impl Iterator<Item = usize> {
        let all = (self.first_end()..ticks).step_by(usize::from(self.stretched).max(1));
        all.take(match self.run.follows {
            Follows::Renews => usize::MAX,
            Follows::Leaves => 1,
        })
    }

    /// R25: the period of a line that renews may not be shortened, that of one that leaves not be changed.
    fn is_ill_stretched(&self) -> bool {
        match self.run.follows {
            Follows::Renews => self.stretched < self.run.period,
            Follows::Leaves => self.stretched != self.run.period,
        }
    }
}

/// R6: the running lines with their T'; the other slots' entries are passed over.
fn stretched_lines(table: &Table, request: &Request) -> Vec<Stretched> {
    table
        .running()
        .map(|(slot, run)| Stretched {
            slot,
            run: *run,
            stretched: request.stretched[slot],
        })
        .collect()
}

fn greatest_common_divisor(mut a: u64, mut b: u64) -> u64 {
    while b != 0 {
        (a, b) = (b, a % b);
    }
    a
}

/// R8: the frame, or none when it is above the limit.
/// A common multiple only grows with further numbers, so the sum stops at the first above.
pub fn frame(table: &Table, request: &Request) -> Option<u64> {
    let lines = stretched_lines(table, request);
    let periods = lines.iter().map(|line| line.stretched);
    let mut multiple = 1u64;
    for period in periods.chain([request.period]) {
        let period = u64::from(period);
        if period == 0 {
            return None;
        }
        multiple = multiple / greatest_common_divisor(multiple, period) * period;
        if multiple > FRAME_LIMIT {
            return None;
        }
    }
    Some(multiple)
}

/// R28, exact by R16: every share and the 1 are taken times the frame.
fn load_above_one(lines: &[Stretched], request: &Request, frame: u64) -> bool {
    let share = |need: u16, period: u16| u128::from(need) * u128::from(frame / u64::from(period));
    let running: u128 = lines.iter().map(|l| share(l.run.need, l.stretched)).sum();
    running + share(request.need, request.period) > u128::from(frame)
}

/// R29, exact by R16: every term is taken times the frame.
fn lag_above_zero(lines: &[Stretched], frame: u64) -> bool {
    let term = |line: &Stretched| {
        let need = i128::from(line.run.need);
        let owed = i128::from(line.run.remaining) - need;
        let per_period = i128::from(frame / u64::from(line.stretched));
        owed * i128::from(frame) + need * i128::from(line.run.age) * per_period
    };
    lines.iter().map(term).sum::<i128>() > 0
}

/// R12 without a new line, one entry for each tick from t0 on.
struct Outlook<'a> {
    lines: &'a [Stretched],
    excess: Vec<i64>,
}

impl<'a> Outlook<'a> {
    fn new(lines: &'a [Stretched], ticks: usize) -> Outlook<'a> {
        let excess = running_excess(lines, ticks);
        Outlook { lines, excess }
    }

    /// Makes sure that at least `ticks` ticks are summed.
    fn reach(&mut self, ticks: usize) {
        if self.excess.len() < ticks {
            self.excess = running_excess(self.lines, ticks.saturating_mul(2));
        }
    }

    /// R30, R103: the first tick, counted from t0, at which the lines that run want more than there was time for, and by how much.
    fn first_short(&self) -> Option<(usize, i64)> {
        let mut all = self.excess.iter().copied().enumerate();
        all.find(|(_, excess)| *excess > 0)
    }

    /// R13: true when with the new line started at `start`, its demand by R11, the excess is at most
    /// 0 at every tick of `start` .. `ticks` − 1.
    /// Before `start` it is the excess of the running lines alone, at which refusal 10 has looked.
    fn smooth(&self, request: &Request, start: usize, ticks: usize) -> bool {
        let mut demand = 0i64;
        let after_start = self.excess.get(start..ticks).unwrap_or(&[]);
        for whole_period in after_start.chunks(usize::from(request.period).max(1)) {
            if whole_period.iter().any(|excess| excess + demand > 0) {
                return false;
            }
            demand += i64::from(request.need);
        }
        true
    }
}

/// R10, R12: a line's demand rises by c at its first end and by C at each end after that, if it has one, and never
/// falls; the excess is what all demands come to, less the ticks since t0.
fn running_excess(lines: &[Stretched], ticks: usize) -> Vec<i64> {
    let mut rise = vec![0i64; ticks];
    for line in lines {
        let mut amount = i64::from(line.run.remaining);
        for end in line.ends_before(ticks) {
            rise[end] += amount;
            amount = i64::from(line.run.need);
        }
    }
    let mut demand = 0i64;
    let sum = |(tick, rise): (usize, i64)| {
        demand += rise;
        demand - tick as i64
    };
    rise.into_iter().enumerate().map(sum).collect()
}

/// R15, counted from t0.
fn last_end(lines: &[Stretched]) -> usize {
    lines.iter().map(Stretched::first_end).max().unwrap_or(0)
}

/// R15 as a tick of the clock, for the second algorithm.
#[cfg(any(test, feature = "house"))]
pub fn last_end_of(table: &Table, request: &Request) -> u64 {
    let end = last_end(&stretched_lines(table, request)) as u64;
    table.clock.saturating_add(end)
}

/// R9: an end of a running line at its T', and R12: the excess of the running lines alone then.
#[cfg(any(test, feature = "house"))]
#[derive(Clone, Copy, Debug, PartialEq, Eq)]
pub struct End {
    pub slot: usize,
    pub tick: u64,
    pub excess: i64,
}

/// R9, R12: every end before the last end, slot by slot, for a table and a request that pass R21 to R25.
#[cfg(any(test, feature = "house"))]
pub fn ends_alone(table: &Table, request: &Request) -> Vec<End> {
    let lines = stretched_lines(table, request);
    let last = last_end(&lines);
    let excess = &running_excess(&lines, last);
    let ends = |line: &Stretched| {
        let (slot, clock) = (line.slot, table.clock);
        line.ends_before(last).map(move |end| End {
            slot,
            tick: clock + end as u64,
            excess: excess[end],
        })
    };
    lines.iter().flat_map(ends).collect()
}

/// R24: the place of a line that is not sound, or, where every line is, 0 for too many ticks counted (R96).
fn fault(table: &Table) -> Option<usize> {
    let overcounted = table.is_overcounted().then_some(0);
    table.lowest_unsound().or(overcounted)
}

/// R21 to R26, which need no frame; R19: the lowest slot is the place.
fn refuse_plain(table: &Table, request: &Request, lines: &[Stretched]) -> Result<(), Refusal> {
    let refuse = |number, place| Err(Refusal::at(number, place));
    if table.clock > LAST_ASK {
        return refuse(1, 0);
    }
    if table.lowest_empty().is_none() {
        return refuse(2, 0);
    }
    if let Some(slot) = table.lowest(Content::is_waiting) {
        return refuse(3, slot);
    }
    if let Some(place) = fault(table) {
        return refuse(4, place);
    }
    if let Some(line) = lines.iter().find(|l| l.is_ill_stretched()) {
        return refuse(5, line.slot);
    }
    if request.need < 1 || request.need > request.period {
        return refuse(6, 0);
    }
    Ok(())
}

/// R27 to R29, which need the frame; gives the frame.
fn refuse_sums(table: &Table, request: &Request, lines: &[Stretched]) -> Result<u64, Refusal> {
    let frame = frame(table, request).ok_or(Refusal::at(7, 0))?;
    if load_above_one(lines, request, frame) {
        return Err(Refusal::at(8, 0));
    }
    if lag_above_zero(lines, frame) {
        return Err(Refusal::at(9, 0));
    }
    Ok(frame)
}

/// How many ticks beyond max(last end, start) are looked at.
#[derive(Clone, Copy)]
enum Beyond {
    /// One whole frame: settles all t by the first argument at the head of this module alone.
    Frame,
    /// None: the second argument shows that with 9 passed no excess stands from the last end on,
    /// whatever the start. No answer of the boundary is compared with it.
    Nothing,
}

/// R14, R18: the first ground that holds, or the least smooth start, counted from the clock.
fn delay(table: &Table, request: &Request, beyond: Beyond) -> Result<usize, Refusal> {
    let lines = stretched_lines(table, request);
    refuse_plain(table, request, &lines)?;
    let frame = refuse_sums(table, request, &lines)? as usize;
    let more = match beyond {
        Beyond::Frame => frame,
        Beyond::Nothing => 0,
    };
    let last = last_end(&lines);
    let mut outlook = Outlook::new(&lines, last + more);
    if let Some((after, excess)) = outlook.first_short() {
        return Err(Refusal::late(table.clock + after as u64, excess as u64));
    }
    let mut start = 0usize;
    loop {
        let ticks = last.max(start) + more;
        outlook.reach(ticks);
        if outlook.smooth(request, start, ticks) {
            return Ok(start);
        }
        start += 1;
    }
}

/// R41: the refusal or the start.
pub fn ask(table: &Table, request: &Request) -> Result<u64, Refusal> {
    delay(table, request, Beyond::Frame).map(|delay| table.clock + delay as u64)
}

/// The same answer, looking before the last end only; for the published sweep, and to draw a request whose start is late.
pub fn ask_before_last_end(table: &Table, request: &Request) -> Result<u64, Refusal> {
    delay(table, request, Beyond::Nothing).map(|delay| table.clock + delay as u64)
}

/// R42: ask's answer, and with a start the new table.
pub fn admit(table: &Table, request: &Request) -> Result<(u64, Table), Refusal> {
    let start = ask(table, request)?;
    Ok((start, admitted(table, request, start)))
}

/// R42, R43: periods stretched, ages, remainings and what follows kept, the new line in the lowest empty slot, which
/// has had nothing yet. Also used for starts that are only tried.
pub fn admitted(table: &Table, request: &Request, start: u64) -> Table {
    let mut next = *table;
    for slot in 0..SLOTS {
        if let Content::Running(run) = &mut next.slots[slot] {
            run.period = request.stretched[slot];
        }
    }
    if let Some(slot) = table.lowest_empty() {
        next.slots[slot] = new_line(request, start - table.clock);
        next.counts.had[slot] = 0;
    }
    next
}

/// R43: the new line runs at once or waits.
fn new_line(request: &Request, wait: u64) -> Content {
    let (need, period) = (request.need, request.period);
    if wait == 0 {
        return begin(need, period);
    }
    // At most the last end, see the head of this module.
    let wait = u16::try_from(wait).expect("a start waits at most for the last end");
    Content::Waiting(Wait { need, period, wait })
}

/// R43, R46, R47: a line at the beginning of a period, which renews.
fn begin(need: u16, period: u16) -> Content {
    Content::Running(Run {
        need,
        period,
        age: 0,
        remaining: need,
        follows: Follows::Renews,
    })
}

#[cfg(test)]
mod tests {
    use super::*;
    use crate::cases;
    use crate::draw;
    use crate::draw_counts;
    use crate::draw_last;
    use crate::draw_late;
    use crate::draw_leaving;
    use crate::edges;
    use crate::random::Random;

    /// R10 word by word, counted from t0.
    fn demand(line: &Stretched, t: i64) -> i64 {
        let first_end = i64::from(line.stretched) - i64::from(line.run.age);
        if t < first_end {
            return 0;
        }
        if line.run.leaves() {
            return i64::from(line.run.remaining);
        }
        let whole = (t - first_end) / i64::from(line.stretched);
        i64::from(line.run.remaining) + i64::from(line.run.need) * whole
    }

    /// R12 of the running lines alone.
    fn alone(lines: &[Stretched], t: i64) -> i64 {
        lines.iter().map(|line| demand(line, t)).sum::<i64>() - t
    }

    /// R11, R12 word by word, counted from t0, the new line started at r.
    fn excess(lines: &[Stretched], request: &Request, r: i64, t: i64) -> i64 {
        let new = if t < r {
            0
        } else {
            i64::from(request.need) * ((t - r) / i64::from(request.period))
        };
        alone(lines, t) + new
    }

    #[test]
    fn every_stated_answer() {
        for case in edges::stated() {
            assert_eq!(
                ask(&case.table, &case.request),
                case.answer,
                "{}",
                case.name
            );
        }
    }

    #[test]
    fn frame_of_case_k_is_the_limit() {
        let find = |name| cases::all().into_iter().find(|case| case.name == name);
        let k = find("K").expect("case K");
        assert_eq!(frame(&k.table, &k.request), Some(1_000_000));
        let l = find("L").expect("case L");
        assert_eq!(frame(&l.table, &l.request), None);
    }

    #[test]
    fn summed_excess_is_the_defined_one() {
        let mut random = Random::new(11);
        for _ in 0..200 {
            let (table, request) = draw_leaving::small(&mut random);
            if refuse_plain(&table, &request, &stretched_lines(&table, &request)).is_err() {
                continue;
            }
            let lines = stretched_lines(&table, &request);
            for (t, summed) in running_excess(&lines, 300).into_iter().enumerate() {
                assert_eq!(summed, excess(&lines, &request, 1_000, t as i64));
            }
        }
    }

    #[test]
    fn ask_is_least_smooth_by_the_defined_excess_far_out() {
        let mut random = Random::new(12);
        let (mut answered, mut later) = (0, 0);
        for _ in 0..3_000 {
            let (table, request) = draw_leaving::small(&mut random);
            let Ok(start) = ask(&table, &request) else {
                continue;
            };
            let lines = stretched_lines(&table, &request);
            let far = 4 * frame(&table, &request).unwrap_or(0) as i64 + 300;
            let smooth = |r: i64| (0..far).all(|t| excess(&lines, &request, r, t) <= 0);
            let delay = (start - table.clock) as i64;
            assert!(smooth(delay));
            assert!((0..delay).all(|r| !smooth(r)));
            answered += 1;
            later += i64::from(delay > 0);
        }
        assert!(answered > 500 && later > 100, "{answered} {later}");
    }

    #[test]
    fn looking_before_the_last_end_gives_the_same() {
        let mut random = Random::new(13);
        for round in 0..3_000 {
            let (table, request) = match round % 2 {
                0 => draw_late::late(&mut random),
                _ => draw_leaving::small(&mut random),
            };
            assert_eq!(ask(&table, &request), ask_before_last_end(&table, &request));
        }
    }

    /// R103 by the defined excess; R104: it is an end, and before the last one.
    #[test]
    fn ten_says_the_first_excess_above_zero_and_nothing_else_does() {
        let mut random = Random::new(15);
        let mut seen = 0;
        for _ in 0..3_000 {
            let (table, request) = draw_late::late(&mut random);
            let Err(refusal) = ask(&table, &request) else {
                continue;
            };
            if refusal.number != 10 {
                assert_eq!((refusal.tick, refusal.excess), (0, 0));
                continue;
            }
            let lines = stretched_lines(&table, &request);
            let after = (refusal.tick - table.clock) as i64;
            assert!((0..after).all(|t| alone(&lines, t) <= 0));
            assert_eq!(alone(&lines, after), refusal.excess as i64);
            let is_there = |end: &End| end.tick == refusal.tick;
            assert!(ends_alone(&table, &request).iter().any(is_there));
            seen += 1;
        }
        assert!(seen > 1_000, "{seen}");
    }

    /// R9 word by word: whether a tick, counted from t0, is an end of a line.
    fn is_end(line: &Stretched, t: i64) -> bool {
        let (period, first) = (i64::from(line.stretched), line.first_end() as i64);
        t == first || t > first && !line.run.leaves() && (t - first) % period == 0
    }

    #[test]
    fn every_end_before_the_last_with_its_excess() {
        let mut random = Random::new(16);
        for _ in 0..300 {
            let (table, request) = draw_late::late(&mut random);
            let lines = stretched_lines(&table, &request);
            let last = lines.iter().map(Stretched::first_end).max().expect("lines");
            let mut wanted = Vec::new();
            for line in &lines {
                for t in (0..last as i64).filter(|t| is_end(line, *t)) {
                    wanted.push(End {
                        slot: line.slot,
                        tick: table.clock + t as u64,
                        excess: alone(&lines, t),
                    });
                }
            }
            assert_eq!(ends_alone(&table, &request), wanted);
        }
    }

    #[test]
    fn any_numbers_are_taken() {
        let mut random = Random::new(14);
        for _ in 0..20_000 {
            let (mut table, request) = draw::any(&mut random);
            draw_leaving::any(&mut random, &mut table);
            match random.below(3) {
                0 => draw_counts::any(&mut random, &mut table),
                1 => draw_counts::too_many(&mut random, &mut table),
                _ => draw_counts::fitting(&mut random, &mut table),
            }
            draw_last::any(&mut random, &mut table);
            let asked = ask(&table, &request);
            assert_eq!(admit(&table, &request).map(|(start, _)| start), asked);
            let _ = step(&table);
            let _ = leave(&table, random.below(20));
            let _ = ready(&table);
        }
    }

    /// R107: asked with each of the 256 values; R105: what is admitted has the same one.
    #[test]
    fn neither_ask_nor_admit_looks_at_the_last_slot() {
        let mut random = Random::new(17);
        let mut granted = 0;
        for round in 0..400 {
            let (table, request) = match round % 4 {
                0 => draw_late::late(&mut random),
                1 => draw_last::tied(&mut random),
                _ => draw_leaving::small(&mut random),
            };
            let told = admit(&table.without_last(), &request);
            granted += u64::from(told.is_ok());
            for last in 0..=u8::MAX {
                let marked = Table { last, ..table };
                let same = told.map(|(start, next)| (start, Table { last, ..next }));
                assert_eq!(ask(&marked, &request), told.map(|(start, _)| start));
                assert_eq!(admit(&marked, &request), same, "{last}");
            }
        }
        assert!((100..300).contains(&granted), "{granted}");
    }

    #[test]
    fn the_new_lines_own_end_counts() {
        // R68, third way: case M started at 103, seen at 109.
        let m = cases::all().into_iter().find(|case| case.name == "M");
        let m = m.expect("case M");
        let lines = stretched_lines(&m.table, &m.request);
        assert_eq!(excess(&lines, &m.request, 3, 9), 1);
    }

    #[test]
    fn admit_places_and_waits() {
        let a = &cases::all()[0];
        let (start, next) = admit(&a.table, &a.request).expect("case A");
        assert_eq!((start, next.clock), (13, 8));
        let wait = Wait {
            need: 1,
            period: 4,
            wait: 5,
        };
        assert_eq!(next.slots[2], Content::Waiting(wait));
        let stretched = Run {
            need: 8,
            period: 32,
            age: 8,
            remaining: 0,
            follows: Follows::Renews,
        };
        assert_eq!(next.slots[0], Content::Running(stretched));
    }

    #[test]
    fn admitted_cases_run_without_a_short_period() {
        for case in edges::stated() {
            let Ok((_, mut table)) = admit(&case.table, &case.request) else {
                continue;
            };
            for _ in 0..5_000 {
                table = match step(&table) {
                    Ok((next, _)) => next,
                    Err(refusal) => panic!("{} {refusal:?}", case.name),
                };
            }
        }
    }
}
