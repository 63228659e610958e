//! Algorithm 1 of the published paper (its title stands in published.rs), ESITforSNT, for `bench` and
//! `sweep` only: nothing else uses it.
//!
//! Written straight from the printed algorithm: segments, the flags against overlapped points, up
//! to two Δ checks for each end. Three readings had to be chosen:
//! - Equation 6 with the ceiling, as in the example (the printed floor gives other starts).
//! - Line 7's `while (r_j < d'_M[i] < t_segend)` would leave a task for good once r_j has passed
//!   one of its ends; here an end not after r_j is passed over and the next one taken.
//! - Without sorting, d'_M(k+1) is not known, so the second check looks at the new task's first
//!   end after d'_M(k) wherever it lies before d'max.
//!
//! Its assumptions are the paper's: load exactly 1, and a table that came from a real run.

use crate::types::{Request, Run, Table, SLOTS};

const SEGMENT: usize = 1024;

/// A running task as c_i(t_r), C_i, T'_i and t_i + T'_i. Times count from t_r and stay below 2^17,
/// so 32 bits are enough.
#[derive(Clone, Copy, Default)]
struct Task {
    owed: i32,
    need: i32,
    period: i32,
    first_end: i32,
}

struct Search {
    tasks: [Task; SLOTS],
    count: usize,
    need: i32,
    period: i32,
    release: i32,
    last: i32,
    checks: u64,
}

/// The release time found and the number of Δ checks, the paper's measure of cost.
#[derive(Clone, Copy, Debug, PartialEq, Eq)]
pub struct Found {
    pub start: u64,
    pub checks: u64,
}

/// The main function of algorithm 1.
pub fn earliest(table: &Table, request: &Request) -> Found {
    let mut search = Search::new(table, request);
    search.all_segments();
    Found {
        start: table.clock + search.release as u64,
        checks: search.checks,
    }
}

impl Task {
    fn new(run: &Run, stretched: u16) -> Task {
        Task {
            owed: run.remaining.into(),
            need: run.need.into(),
            period: stretched.into(),
            first_end: i32::from(stretched) - i32::from(run.age),
        }
    }

    /// Equations 3 and 4 for one task.
    fn demand(&self, t: i32) -> i32 {
        if t < self.first_end {
            0
        } else {
            self.owed + self.need * whole(t - self.first_end, self.period)
        }
    }
}

/// The whole part of a quotient of numbers that are not below 0, unsigned because that divides quicker.
fn whole(time: i32, by: i32) -> i32 {
    (time as u32 / by as u32) as i32
}

impl Search {
    fn new(table: &Table, request: &Request) -> Search {
        let mut tasks = [Task::default(); SLOTS];
        let mut count = 0;
        for (slot, run) in table.running() {
            tasks[count] = Task::new(run, request.stretched[slot]);
            count += 1;
        }
        let ends = tasks[..count].iter().map(|task| task.first_end);
        Search {
            tasks,
            count,
            need: request.need.into(),
            period: request.period.into(),
            release: 0,
            last: ends.max().unwrap_or(0),
            checks: 0,
        }
    }

    /// Lines 2 to 16.
    fn all_segments(&mut self) {
        let mut ends = self.tasks.map(|task| task.first_end);
        let ends = &mut ends[..self.count];
        let mut segment_end = ends.iter().copied().min().unwrap_or(0);
        // Eight bits are enough for a mark: there are at most 64 segments.
        let mut flags = [0u8; SEGMENT];
        let mut mark = 0;
        while segment_end < self.last {
            let segment_start = segment_end;
            segment_end += (self.last - segment_end).min(SEGMENT as i32);
            mark += 1;
            for (end, task) in ends.iter_mut().zip(self.tasks) {
                while *end < segment_end {
                    let flag = &mut flags[(*end - segment_start) as usize];
                    if self.release < *end && *flag != mark {
                        *flag = mark;
                        self.release += self.delay_at(*end);
                    }
                    *end += task.period;
                }
            }
        }
    }

    /// The sub function deadlinecheck(): theorem 3.
    fn delay_at(&mut self, end: i32) -> i32 {
        let over = self.delta(end);
        let whole_periods = whole(end - self.release, self.period);
        let since_own_end = end - self.release - whole_periods * self.period;
        if over > 0 {
            // Equation 6, its last term with the ceiling.
            let times = whole(over - 1, self.need);
            return since_own_end + over + times * (self.period - self.need);
        }
        let own_end = end - since_own_end + self.period;
        if own_end < self.last {
            self.delta(own_end).max(0)
        } else {
            0
        }
    }

    /// Δ(t_r, t).
    fn delta(&mut self, t: i32) -> i32 {
        self.checks += 1;
        let tasks = &self.tasks[..self.count];
        let old: i32 = tasks.iter().map(|task| task.demand(t)).sum();
        old + self.need * whole(t - self.release, self.period) - t
    }
}

#[cfg(test)]
mod tests {
    use super::*;
    use crate::{cases, published, rules};

    #[test]
    fn one_check_in_the_papers_example() {
        let a = &cases::all()[0];
        let found = earliest(&a.table, &a.request);
        assert_eq!(
            found,
            Found {
                start: 13,
                checks: 1
            }
        );
    }

    #[test]
    fn the_nine_published_answers() {
        for (first_period, tick, start) in published::ANSWERS {
            let (begin, request) = published::set(first_period).expect("fits");
            let table = published::at(&begin, tick);
            assert_eq!(earliest(&table, &request).start, start);
        }
    }

    #[test]
    fn equal_to_ask_on_a_whole_published_set() {
        let (begin, request) = published::set(60).expect("fits");
        let mut table = begin;
        for tick in 0..published::round(60) {
            table = published::at(&table, tick);
            let start = earliest(&table, &request).start;
            assert_eq!(Ok(start), rules::ask_before_last_end(&table, &request));
        }
    }
}
