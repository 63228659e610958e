//! The stored set of cards with their answers, for a program that answers many cards in one run.

use crate::card;
use crate::cases;
use crate::draw;
use crate::draw_late;
use crate::draw_leaving;
use crate::edge_cards::{self, EdgeCard};
use crate::edge_late;
use crate::edge_leaving;
use crate::edges;
use crate::orders;
use crate::published;
use crate::random::Random;
use crate::spoil;
use crate::types::{Refusal, Request, Table, LAST_ASK, LAST_TICK};
use std::io;

/// The length that ends the set.
const END: u16 = 0xFFFF;

const SEED: u64 = 2;
const NEAR_FULL: usize = 3_600;
const WIDE: usize = 160;
const DAMAGED: usize = 1_000;
const ANY: usize = 150;
const BROKEN: usize = 600;
const MANY_LINES: usize = 60;
const SAMPLES: u64 = 4;
const OLD_ORDERS: usize = 250;
const LEAVING: usize = 300;
const HURRIED: usize = 300;
const LEAVING_DAMAGED: usize = 150;
const LEAVING_BROKEN: usize = 100;
const LATE: usize = 150;

fn of(drawn: (Table, Request)) -> Vec<u8> {
    card::bytes(&drawn.0, &drawn.1)
}

fn of_rows(rows: &[cases::Case]) -> Vec<Vec<u8>> {
    rows.iter()
        .map(|row| of((row.table, row.request)))
        .collect()
}

fn of_edge_cards(cards: Vec<EdgeCard>) -> Vec<Vec<u8>> {
    cards.into_iter().map(|edge| edge.bytes).collect()
}

/// R7, R21: case D and the empty table at clocks around every limit.
fn clocks() -> Vec<Vec<u8>> {
    let lines = [(7, 28, 28, 20, 7), (8, 16, 32, 8, 0)];
    let mut all = vec![
        0,
        1,
        u64::MAX,
        u64::MAX - 1,
        1 << 63,
        1 << 32,
        (1 << 32) - 1,
    ];
    all.extend(LAST_ASK - 3..=LAST_ASK + 3);
    all.extend(LAST_TICK - 3..=LAST_TICK + 3);
    let card = |clock: u64, lines: &[cases::Line]| of(cases::row(clock, lines, (2, 4)));
    all.into_iter()
        .flat_map(|clock| [card(clock, &lines), card(clock, &[])])
        .collect()
}

/// R22, R24: tables of 15 lines and of all 16 slots, sound and then with one number changed.
fn many_lines(random: &mut Random) -> Vec<Vec<u8>> {
    let mut cards = Vec::new();
    for index in 0..MANY_LINES {
        let period = 60 * (1 + random.small(12));
        let mut lines = Vec::new();
        for _ in 0..15 + index % 2 {
            let need = 1 + random.small(u64::from(period) / 16);
            let age = random.small(u64::from(period));
            let owed = u32::from(need) * u32::from(period - age) / u32::from(period);
            let stretched = period * (1 + random.small(2));
            lines.push((need, period, stretched, age, owed as u16));
        }
        if index % 5 == 4 {
            lines[random.below(15) as usize].3 = period;
        }
        let new = (
            1 + random.small(3),
            [5, 10, 15, 30][random.below(4) as usize],
        );
        cards.push(of(cases::row(random.below(1_000), &lines, new)));
    }
    cards
}

/// Near full load with the clock at the limits.
fn random_clocks(random: &mut Random) -> Vec<Vec<u8>> {
    let mut cards = Vec::new();
    for _ in 0..60 {
        let (mut table, request) = draw::near_full(random);
        table.clock = draw::any_clock(random);
        cards.push(of((table, request)));
    }
    cards
}

/// The nine published answers and samples of each of the 184 sets, in rising order of the tick.
fn published_cards(random: &mut Random) -> Vec<Vec<u8>> {
    let mut cards = Vec::new();
    for first_period in published::FIRST_PERIODS {
        let Some((begin, request)) = published::set(first_period) else {
            continue;
        };
        let round = published::round(first_period);
        let mut ticks: Vec<u64> = (0..SAMPLES).map(|_| random.below(round)).collect();
        let named = published::ANSWERS
            .iter()
            .filter(|(t, _, _)| *t == first_period);
        ticks.extend(named.map(|(_, tick, _)| *tick));
        ticks.sort_unstable();
        let mut table = begin;
        for tick in ticks {
            table = published::at(&table, tick);
            cards.push(of((table, request)));
        }
    }
    cards
}

/// Every pair of a small table over its whole period: all ages and remainings of two lines.
fn small_grid() -> Vec<Vec<u8>> {
    let mut cards = Vec::new();
    for age in 0..=6 {
        for owed in 0..=3 {
            for (other_age, other_owed) in [(0, 0), (0, 4), (3, 4), (5, 1), (7, 0)] {
                let lines = [(2, 6, 12, age, owed), (4, 8, 8, other_age, other_owed)];
                cards.push(of(cases::row(50, &lines, (1, 3))));
            }
        }
    }
    cards
}

/// R53, R58: lines that leave beside lines of either order.
fn every_mark(random: &mut Random, drawn: (Table, Request)) -> Vec<u8> {
    orders::drawn(random, &of(drawn))
}

/// R58: near full load, with lines of either order.
fn either_order(random: &mut Random) -> Vec<u8> {
    let card = of(draw::near_full(random));
    orders::drawn(random, &card)
}

fn repeat(count: usize, mut card: impl FnMut() -> Vec<u8>) -> Vec<Vec<u8>> {
    (0..count).map(|_| card()).collect()
}

/// All cards in their order; whatever is added stands at the end, so that no card before it moves.
fn cards() -> Vec<Vec<u8>> {
    let mut random = Random::new(SEED);
    let random = &mut random;
    [
        of_rows(&cases::all()),
        clocks(),
        spoil::named(),
        small_grid(),
        many_lines(random),
        repeat(NEAR_FULL, || of(draw::near_full(random))),
        random_clocks(random),
        repeat(DAMAGED, || of(draw::damaged(random))),
        repeat(ANY, || of(draw::any(random))),
        repeat(BROKEN, || spoil::random_card(random)),
        repeat(WIDE, || of(draw::wide(random))),
        published_cards(random),
        of_rows(&edges::rows()),
        of_edge_cards(edge_cards::all()),
        repeat(OLD_ORDERS, || either_order(random)),
        of_rows(&edge_leaving::rows()),
        of_edge_cards(edge_cards::leaving()),
        spoil::leaving(),
        repeat(LEAVING, || {
            let drawn = draw_leaving::near_full(random);
            every_mark(random, drawn)
        }),
        repeat(HURRIED, || of(draw_leaving::hurried(random))),
        repeat(LEAVING_DAMAGED, || of(draw_leaving::damaged(random))),
        repeat(LEAVING_BROKEN, || spoil::random_leaving_card(random)),
        of_rows(&edge_late::rows()),
        of_edge_cards(edge_cards::late()),
        repeat(LATE, || of(draw_late::late(random))),
    ]
    .concat()
}

/// How often each answer stands in the set.
#[derive(Default)]
struct Reached {
    refused: [u64; 16],
    starts: u64,
    later: u64,
}

impl Reached {
    fn add(&mut self, bytes: &[u8], answer: Result<u64, Refusal>) {
        match answer {
            Err(refusal) => self.refused[usize::from(refusal.number)] += 1,
            Ok(start) => {
                self.starts += 1;
                self.later += u64::from(start > card::read(bytes).table.clock);
            }
        }
    }

    fn report(&self, cards: usize, input: usize, output: usize) {
        eprintln!("cards {cards} stdin {input} bytes stdout {output} bytes");
        eprintln!(
            "starts {} of them later than the clock {}",
            self.starts, self.later
        );
        let numbers = (1..16).filter(|number| self.refused[*number] > 0);
        let pairs: Vec<String> = numbers
            .map(|number| format!("{number}:{}", self.refused[number]))
            .collect();
        eprintln!("refused {}", pairs.join(" "));
    }
}

/// The set as bytes of standard input and its lines; how often each answer is reached goes to standard error.
pub fn set() -> io::Result<(Vec<u8>, String)> {
    let cards = cards();
    let (mut input, mut output) = (Vec::new(), String::new());
    let mut reached = Reached::default();
    for bytes in &cards {
        let length = u16::try_from(bytes.len()).map_err(io::Error::other)?;
        input.extend(length.to_le_bytes());
        input.extend(bytes);
        let answer = card::judge(bytes);
        reached.add(bytes, answer);
        output.push_str(&card::line(answer));
    }
    input.extend(END.to_le_bytes());
    reached.report(cards.len(), input.len(), output.len());
    Ok((input, output))
}

#[cfg(test)]
mod tests {
    use super::*;

    /// The program of `crates/vectors` takes a longer card for the end of the set.
    const LONGEST: usize = 256;

    #[test]
    fn the_set_keeps_its_limits() {
        let cards = cards();
        let bytes: usize = cards.iter().map(|card| card.len() + 2).sum();
        assert!(cards.len() <= 9_000, "{}", cards.len());
        assert!(bytes <= 1_500_000, "{bytes}");
        assert!(cards.iter().all(|card| card.len() <= LONGEST));
    }

    /// R32
    #[test]
    fn no_card_is_refused_by_12() {
        let refusals = cards().into_iter().map(|card| card::read(&card).refusal);
        assert!(refusals.flatten().all(|refusal| refusal.number == 11));
    }
}
