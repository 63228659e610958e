//! The benchmark's figures as Markdown: medians over the runs, and ratios with their least and greatest.

use crate::digits::grouped;
use std::process::Command;
use std::{fs, thread};

/// The times of one thing, in nanoseconds, in the order of its table's ways: ours first.
pub struct Row {
    name: String,
    times: Vec<f64>,
}

impl Row {
    pub fn new(name: String, times: Vec<f64>) -> Row {
        Row { name, times }
    }
}

/// One table.
pub struct Part {
    title: &'static str,
    names: &'static [&'static str],
    ways: &'static [&'static str],
    rows: Vec<Row>,
}

impl Part {
    pub fn new(
        title: &'static str,
        names: &'static [&'static str],
        ways: &'static [&'static str],
        rows: Vec<Row>,
    ) -> Part {
        Part {
            title,
            names,
            ways,
            rows,
        }
    }

    /// The ways that ours is held against; (c) is so far off that its ratio says nothing.
    fn rivals(&self) -> impl Iterator<Item = usize> + '_ {
        (1..self.ways.len()).filter(|way| self.ways[*way] != "(c)")
    }

    fn head(&self) -> String {
        let names = self
            .names
            .iter()
            .chain(self.ways)
            .map(|name| name.to_string());
        let ratios = self
            .rivals()
            .map(|way| format!("ours / {}", self.ways[way]));
        let cells: Vec<String> = names.chain(ratios).collect();
        format!("| {} |\n|{}", cells.join(" | "), "---|".repeat(cells.len()))
    }
}

fn sorted(numbers: impl Iterator<Item = f64>) -> Vec<f64> {
    let mut all: Vec<f64> = numbers.collect();
    all.sort_by(f64::total_cmp);
    all
}

/// The middle of sorted numbers, or the mean of the two middle ones.
fn median(sorted: &[f64]) -> f64 {
    let half = sorted.len() / 2;
    (sorted[half] + sorted[(sorted.len() - 1) / 2]) / 2.0
}

/// A row over the runs. A ratio is formed within each run, because what else the machine does changes from run to run.
fn line(part: &Part, runs: &[&Row]) -> String {
    let mut cells = vec![runs[0].name.clone()];
    for way in 0..part.ways.len() {
        let times = sorted(runs.iter().map(|row| row.times[way]));
        cells.push(grouped(median(&times).round() as u64));
    }
    for way in part.rivals() {
        let ratios = sorted(runs.iter().map(|row| row.times[0] / row.times[way]));
        let (least, greatest) = (ratios[0], ratios[ratios.len() - 1]);
        cells.push(format!(
            "{:.2} ({least:.2} to {greatest:.2})",
            median(&ratios)
        ));
    }
    format!("| {} |", cells.join(" | "))
}

/// The first line that a command prints.
fn said_by(program: &str, word: &str) -> String {
    let said = Command::new(program).arg(word).output().ok();
    let said = said.filter(|output| output.status.success());
    let text = said.map(|output| String::from_utf8_lossy(&output.stdout).into_owned());
    text.and_then(|text| text.lines().next().map(str::to_owned))
        .unwrap_or("unknown".into())
}

/// The name alone may say little, so its numbers stand behind it.
fn processor() -> String {
    let text = fs::read_to_string("/proc/cpuinfo").unwrap_or_default();
    let told = |key: &str| {
        let fields = text.lines().filter_map(|line| line.split_once(':'));
        let field = fields.into_iter().find(|(name, _)| name.trim() == key);
        field.map_or("unknown", |(_, value)| value.trim())
    };
    format!(
        "{} (family {}, model {}, {} MHz)",
        told("model name"),
        told("cpu family"),
        told("model"),
        told("cpu MHz")
    )
}

/// What the figures were taken on, and the tables; every run has the same tables and rows.
pub fn print<const N: usize>(runs: &[[Part; N]]) {
    let Some(first) = runs.first() else { return };
    let cores = thread::available_parallelism().map_or(0, usize::from);
    let (rust, kit) = (said_by("rustc", "--version"), said_by("rt", "version"));
    println!(
        "Processor {}, cores {cores}; {rust}; kit {kit}; runs {}.",
        processor(),
        runs.len()
    );
    for (p, part) in first.iter().enumerate() {
        println!("\n## {}\n\n{}", part.title, part.head());
        for r in 0..part.rows.len() {
            let rows: Vec<&Row> = runs.iter().map(|run| &run[p].rows[r]).collect();
            println!("{}", line(part, &rows));
        }
    }
}
