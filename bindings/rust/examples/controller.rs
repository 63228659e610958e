//! controller: the main loop of a pump controller, without the pump. bindings/c/controller.c is its twin.
//!
//! Two lines are admitted, and eight ticks later a bench, for which the first line's period is doubled (case A, R67). Then
//! it prints what the pump does in each of 56 ticks: the slot that it serves, or a dot for none; and what each line has had
//! since it was admitted. At last the second line is let go, and the same is printed of the ticks up to its end.

use std::process::ExitCode;
use trimthuel::{Pump, Refusal, Request};

/// Stands for the ports of the valve board: bit k belongs to slot k.
#[derive(Default)]
struct Board {
    ready_lines: u16,
    open_valves: u16,
}

impl Board {
    /// R49, R1: the board takes the ready word, and opens the valve of one slot or none.
    fn take(&mut self, ready: u16, slot: Option<usize>) {
        self.ready_lines = ready;
        self.open_valves = slot.map_or(0, |slot| 1 << slot);
    }
}

/// Stands for the front lamp.
fn blink(times: u8) {
    eprint!("{}", "* ".repeat(times.into()));
}

/// R50: a refusal blinks, and says why; R103: 10 also says when the lines are short first, and by how much.
fn report(refusal: Refusal) {
    blink(refusal.blinks());
    eprintln!("{refusal}");
}

/// R17: a refusal changes nothing: the pump goes on with the lines that it has.
fn admit(pump: &mut Pump, request: &Request) {
    match pump.admit(request) {
        Ok(line) => eprintln!("slot {} starts at tick {}", line.slot, line.start),
        Err(refusal) => report(refusal),
    }
}

/// R100: a running line stays up to the end of its period, with what that still owes it. Answers in how many ticks its slot is
/// free; a refusal changes nothing, and then these are none.
fn leave(pump: &mut Pump, slot: usize) -> u64 {
    match pump.leave(slot) {
        Ok(ticks) => {
            eprintln!("slot {slot} is free in {ticks} ticks");
            ticks
        }
        Err(refusal) => {
            report(refusal);
            0
        }
    }
}

/// R48, R49: one tick of the pump; answers the slot that got it.
fn tick(pump: &mut Pump, board: &mut Board) -> Result<Option<usize>, Refusal> {
    let slot = pump.step()?;
    board.take(pump.ready(), slot);
    Ok(slot)
}

fn mark(slot: Option<usize>) -> char {
    slot.and_then(|slot| char::from_digit(slot as u32, 16))
        .unwrap_or('.')
}

/// Lets the pump run, and shows who got each tick.
fn show_ticks(pump: &mut Pump, board: &mut Board, ticks: u64) -> Result<(), Refusal> {
    let row = (0..ticks).map(|_| tick(pump, board).map(mark));
    println!("{}", row.collect::<Result<String, Refusal>>()?);
    Ok(())
}

/// R98: shows what each line has had, the ticks in which none ran, and those of lines that are gone; answers whether they add up
/// to the clock.
fn show_counts(pump: &Pump) -> bool {
    let counts = pump.counts();
    print!("clock {}", counts.clock);
    for (slot, ticks) in counts.had.iter().enumerate().filter(|(_, had)| **had > 0) {
        print!(", slot {slot} had {ticks}");
    }
    print!(", idle {}", counts.idle);
    if counts.departed > 0 {
        print!(", departed {}", counts.departed);
    }
    println!();
    counts.sum() == counts.clock.into()
}

/// Lets the pump run and shows what it did; false if the counts do not add up, as they do on every table that came from the empty
/// one (R79).
fn show(pump: &mut Pump, board: &mut Board, ticks: u64) -> Result<bool, Refusal> {
    show_ticks(pump, board, ticks)?;
    Ok(show_counts(pump))
}

fn control(board: &mut Board) -> Result<bool, Refusal> {
    let mut pump = Pump::new();
    for _ in 0..2 {
        let line = pump.request(8, 16);
        admit(&mut pump, &line);
    }
    for _ in 0..8 {
        tick(&mut pump, board)?;
    }
    let bench = pump.request(1, 4).stretch(0, 32);
    admit(&mut pump, &bench);
    let accounted_for = show(&mut pump, board, 56)?;
    let ticks = leave(&mut pump, 1);
    Ok(show(&mut pump, board, ticks)? && accounted_for)
}

fn main() -> ExitCode {
    if trimthuel::version() != trimthuel::VERSION {
        eprintln!("the library has another version than this crate");
        return ExitCode::FAILURE;
    }
    let mut board = Board::default();
    match control(&mut board) {
        Ok(true) => ExitCode::SUCCESS,
        Ok(false) => {
            eprintln!("the counts do not add up to the clock");
            ExitCode::FAILURE
        }
        Err(refusal) => {
            board.take(0, None);
            report(refusal);
            ExitCode::FAILURE
        }
    }
}
