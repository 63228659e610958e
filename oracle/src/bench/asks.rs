//! What is asked in the benchmark, and the time that each way takes for it.

use crate::card;
use crate::esit;
use crate::published;
use crate::random::Random;
use crate::slow;
use crate::types::{Content, Follows, Request, Run, Table, EMPTY, SLOTS};
use std::hint::black_box;
use std::time::Instant;

pub type Question = (Table, Request);

const SAMPLES: u64 = 400;
const SLOW_SAMPLES: usize = 4;
const ROUNDS: usize = 7;

/// Nanoseconds for one of `count` things, the best of several rounds.
pub fn best(count: usize, mut work: impl FnMut()) -> f64 {
    let mut least = f64::MAX;
    for _ in 0..ROUNDS {
        let begun = Instant::now();
        work();
        least = least.min(begun.elapsed().as_nanos() as f64 / count.max(1) as f64);
    }
    least
}

/// Questions with their cards.
pub struct Asks {
    pub questions: Vec<Question>,
    pub cards: Vec<Vec<u8>>,
}

impl Asks {
    pub fn new(questions: Vec<Question>) -> Asks {
        let cards = questions.iter().map(|(t, r)| card::bytes(t, r)).collect();
        Asks { questions, cards }
    }

    /// A published set at drawn request ticks.
    pub fn published(random: &mut Random, first_period: u64) -> Asks {
        let Some((mut table, request)) = published::set(first_period) else {
            return Asks::new(Vec::new());
        };
        let round = published::round(first_period);
        let mut ticks: Vec<u64> = (0..SAMPLES).map(|_| random.below(round)).collect();
        ticks.sort_unstable();
        let at = |tick| {
            table = published::at(&table, tick);
            (table, request)
        };
        Asks::new(ticks.into_iter().map(at).collect())
    }

    /// The time of one answer to a card.
    pub fn time<T>(&self, answer: impl Fn(&[u8]) -> T) -> f64 {
        best(self.cards.len(), || {
            for bytes in &self.cards {
                black_box(answer(black_box(bytes)));
            }
        })
    }

    pub fn ours(&self) -> f64 {
        self.time(ours)
    }

    pub fn paper(&self) -> f64 {
        best(self.cards.len(), || {
            for (question, bytes) in self.questions.iter().zip(&self.cards) {
                black_box(paper(black_box(question), black_box(bytes)));
            }
        })
    }

    /// (c) once, at a few of the questions: it takes long.
    pub fn slow(&self) -> f64 {
        let every = self.questions.len().max(1).div_ceil(SLOW_SAMPLES);
        let few: Vec<&Question> = self.questions.iter().step_by(every).collect();
        let begun = Instant::now();
        for (table, request) in &few {
            black_box(slow::least_start(table, request));
        }
        begun.elapsed().as_nanos() as f64 / few.len().max(1) as f64
    }

    /// Whether we, (a), (b) and (d) give the same starts.
    pub fn agree(&self) -> bool {
        let same = |((t, r), bytes): (&Question, &Vec<u8>)| {
            let start = esit::earliest(t, r).start;
            let (line, length) = ours(bytes);
            quick::answer(bytes) == Ok(start)
                && quick::answer_in_order(bytes) == Ok(start)
                && &line[..length] == format!("release {start}\n").as_bytes()
        };
        self.questions.iter().zip(&self.cards).all(same)
    }
}

/// Our answer line for a card, and its length.
pub fn ours(bytes: &[u8]) -> ([u8; trimthuel::LINE_MAX], usize) {
    let mut out = [0; trimthuel::LINE_MAX];
    let length = trimthuel::answer(bytes, &mut out).unwrap_or(0);
    (out, length)
}

/// (a)'s start, where R21 to R29 do not hold.
pub fn paper((table, request): &Question, bytes: &[u8]) -> Option<u64> {
    quick::passes(bytes).then(|| esit::earliest(table, request).start)
}

/// A table of `count` lines of period 15 and one that ends after `last` ticks: as many ends as fit before that. The short lines' ends are
/// all the same ticks, or each a tick of its own.
pub fn many_ends(count: usize, last: u16, apart: bool) -> Question {
    let mut table = EMPTY;
    let mut request = Request {
        stretched: [0; SLOTS],
        need: 1,
        period: last,
    };
    for i in 0..=count {
        let age = if apart && i < count { i as u16 } else { 0 };
        let period = if i < count { 15 } else { last };
        table.slots[i] = Content::Running(Run {
            need: 1,
            period,
            age,
            remaining: u16::from(age == 0),
            follows: Follows::Renews,
        });
        request.stretched[i] = period;
    }
    (table, request)
}
