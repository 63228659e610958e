//! The benchmark: the project's code over its C boundary beside other ways to do the same, all in one run, each the best of several rounds.
//!
//! (a) is ESITforSNT, algorithm 1 of the published paper, with its two checks an end, (b) the project's own algorithm in plain Rust (`bench/quick`),
//! (c) trial and error with the pump simulated, (d) the quickest ways we know, chosen by the lines (`bench/quick`). All start from a card's bytes and
//! test R21 to R29, but (c), which is handed the table; (a) takes its reading and its tests from (b).
//!
//! A step on an image (R88) stands beside our own by value, which is what a run (R66) takes for a tick.

mod asks;
mod figures;
mod steps;

use crate::card;
use crate::digits::grouped;
use crate::published;
use crate::random::Random;
use asks::{best, many_ends, ours, paper, Asks};
use figures::{Part, Row};
use std::hint::black_box;
use std::panic;

const SEED: u64 = 3;

fn published_sets(fine: &mut bool) -> Part {
    let mut random = Random::new(SEED);
    let rows = published::SHOWN.map(|first_period| {
        let asks = Asks::published(&mut random, first_period);
        *fine &= asks.agree();
        let times = vec![
            asks.ours(),
            asks.paper(),
            asks.time(quick::answer),
            asks.slow(),
            asks.time(quick::answer_in_order),
        ];
        Row::new(format!("{first_period}"), times)
    });
    Part::new(
        "The published task sets",
        &["T0"],
        &["ours", "(a)", "(b)", "(c)", "(d)"],
        rows.into(),
    )
}

fn worst(fine: &mut bool) -> Part {
    let lines = [1, 2, 4, 8, 14].map(|count| (count, 65_520, true));
    let ends = [32_760, 16_380, 8_190].map(|last| (14, last, true));
    let all = lines.into_iter().chain(ends).chain([(14, 65_520, false)]);
    let rows = all.map(|(count, last, apart)| {
        let asks = Asks::new(vec![many_ends(count, last, apart)]);
        *fine &= asks.agree();
        let shared = if apart { "" } else { ", ends shared by all" };
        let ends = grouped((count * (usize::from(last) - 1) / 15) as u64);
        let times = vec![
            asks.ours(),
            asks.paper(),
            asks.time(quick::answer),
            asks.time(quick::answer_in_order),
        ];
        Row::new(format!("{count} and one{shared} | {ends}"), times)
    });
    Part::new(
        "An ask at its worst",
        &["lines", "ends"],
        &["ours", "(a)", "(b)", "(d)"],
        rows.collect(),
    )
}

/// The card of a full table, 208 bytes.
fn long_card() -> Vec<u8> {
    let (table, request) = steps::equal_lines(16);
    card::bytes(&table, &request)
}

fn rewrite(fine: &mut bool) -> Row {
    const TIMES: usize = 20_000;
    let bytes = long_card();
    let (mut out, mut other) = ([0; trimthuel::CARD_MAX], [0; trimthuel::CARD_MAX]);
    let ours = best(TIMES, || {
        for _ in 0..TIMES {
            let _ = black_box(trimthuel::rewrite(black_box(&bytes), &mut out));
        }
    });
    let plain = best(TIMES, || {
        for _ in 0..TIMES {
            if let Ok((pump, request, turned)) = quick::read(black_box(&bytes)) {
                let _ = black_box((turned, quick::write(&pump, &request, &mut other)));
            }
        }
    });
    *fine &= out == other && out[..] == bytes[..];
    Row::new(
        "a card of 208 bytes read and written anew".into(),
        vec![ours, plain],
    )
}

/// A clock that is too late is the first refusal (R21), so that this is nearly the reader alone.
fn late() -> Row {
    let mut bytes = long_card();
    bytes[9] = 255;
    let asks = Asks {
        questions: Vec::new(),
        cards: vec![bytes; 20_000],
    };
    Row::new(
        "a card of 208 bytes read, and refused by its clock".into(),
        vec![asks.ours(), asks.time(quick::answer)],
    )
}

fn small(fine: &mut bool) -> Part {
    let rows = vec![steps::run(fine), rewrite(fine), late(), steps::ready(fine)];
    Part::new("Step and card", &[""], &["ours", "(b)"], rows)
}

fn image_steps(fine: &mut bool) -> Part {
    let rows = vec![
        steps::image_step(fine, "sixteen lines", 16),
        steps::image_step(fine, "one line", 1),
    ];
    Part::new(
        "A step over the boundary, its image read and written",
        &["lines"],
        &["ours", "by value", "(b)"],
        rows,
    )
}

/// Whether sums are checked for overflow in this build: that would slow the other ways by what ours does not do.
fn sums_are_checked() -> bool {
    let hook = panic::take_hook();
    panic::set_hook(Box::new(|_| ()));
    let checked = panic::catch_unwind(|| black_box(black_box(u8::MAX) + black_box(1))).is_err();
    panic::set_hook(hook);
    if checked {
        eprintln!("This build checks sums for overflow, which slows the ways beside ours: build it with `cargo run --profile figures --features house`.");
    }
    checked
}

/// The whole benchmark, `runs` times over, as Markdown; true when all ways agree.
pub fn run(runs: usize) -> bool {
    if sums_are_checked() {
        return false;
    }
    let mut fine = true;
    let mut all = Vec::new();
    for k in 1..=runs {
        eprintln!("run {k} of {runs}");
        all.push([
            published_sets(&mut fine),
            worst(&mut fine),
            small(&mut fine),
            image_steps(&mut fine),
        ]);
    }
    figures::print(&all);
    if !fine {
        eprintln!("The ways do not agree.");
    }
    fine
}

/// One way alone, `times` over, for an instruction count from outside: `ours`, `paper`, `plain`, `ordered` or `nothing`, at the worst question or
/// at a published set.
pub fn count(way: &str, set: Option<u64>, times: usize) -> bool {
    if sums_are_checked() {
        return false;
    }
    let asks = match set {
        Some(first_period) => Asks::published(&mut Random::new(SEED), first_period),
        None => Asks::new(vec![many_ends(14, 65_520, true)]),
    };
    let both = asks.questions.iter().zip(&asks.cards);
    for (question, bytes) in both.cycle().take(times) {
        match way {
            "ours" => drop(black_box(ours(bytes))),
            "paper" => drop(black_box(paper(question, bytes))),
            "plain" => drop(black_box(quick::answer(bytes))),
            "ordered" => drop(black_box(quick::answer_in_order(bytes))),
            "nothing" => drop(black_box((question, bytes))),
            _ => return false,
        }
    }
    true
}
