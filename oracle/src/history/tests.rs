//! The comparison finds what it should find, and its histories are short and can be done again.

mod counts;
mod last;
mod late;
mod leaving;

use super::beside::{Beside, Doer};
use super::drawn::Drawn;
use super::operation::Operation;
use super::tally::Tally;
use super::{compared, damage, laid, replay};
use crate::boundary::{should, Act, Desk, Told};
use crate::draw;
use crate::draw_counts;
use crate::draw_last;
use crate::draw_leaving;
use crate::image;
use crate::random::Random;
use crate::types::Table;

const CALLS: u64 = 40_000;
const SEED: u64 = 17;

#[test]
fn the_rules_do_not_differ_from_themselves_and_meet_every_refusal_and_all_that_can_be_met() {
    let mut tally = Tally::default();
    assert_eq!(compared(should, CALLS, SEED, &mut tally), None);
    assert!(tally.compared() >= CALLS);
    assert_eq!(tally.amiss(), Vec::<usize>::new(), "{tally}");
    assert_eq!(tally.unmet(), Vec::<&str>::new(), "{tally}");
    assert!(tally.later > 200, "{tally}");
    assert!(tally.turned > 100, "{tally}");
}

#[test]
fn twelve_is_amiss_where_it_is_told_and_any_other_refusal_where_it_is_not() {
    let mut tally = Tally::default();
    let told: Vec<Told> = (11..=13_u64)
        .map(|number| Told::refused(number, 10))
        .collect();
    tally.count(&Act::Rewrite.into(), &told, &[], &Desk::new());
    let others = [1, 2, 3, 4, 5, 6, 7, 8, 9, 10, 12, 14, 15, 16];
    assert_eq!(tally.amiss(), others);
}

/// R96: on an empty table at clock 0 an idle tick is one above, and the idle count alone, and nothing else is met.
#[test]
fn what_was_not_met_is_named() {
    let mut tally = Tally::default();
    let all = tally.unmet();
    let mut desk = Desk::new();
    Operation::from_line("idle 1")
        .expect("words")
        .lay(&mut desk);
    let before = desk.image.part().to_vec();
    let told = should(&Act::Step, &mut desk);
    tally.count(&Act::Step.into(), &[told], &before, &desk);
    let wanted = ["counts one above", "counts, the idle one alone"];
    let met = all.iter().filter(|name| !tally.unmet().contains(name));
    assert_eq!(Vec::from_iter(met.copied()), wanted);
}

/// A fault's name, a library that has it, and how many operations show it at most.
type Fault = (&'static str, Doer, usize);

/// What a library would do that has a fault: the rules, and then a change of what they told or left.
fn with(act: &Act, desk: &mut Desk, fault: impl FnOnce(&mut Told, &mut Desk)) -> Told {
    let mut told = should(act, desk);
    fault(&mut told, desk);
    told
}

fn granted(told: &Told) -> bool {
    told.number == 0
}

/// The table of a desk whose image reads.
fn table(desk: &Desk) -> Option<Table> {
    image::read(desk.image.part()).ok()
}

/// After a tick of slot 2 the clock stands.
fn step_stands(act: &Act, desk: &mut Desk) -> Told {
    with(act, desk, |told, desk| {
        if *act == Act::Step && granted(told) && told.value == 2 {
            let clock = image::clock(desk.image.part()) - 1;
            Operation::Clock(clock).lay(desk);
        }
    })
}

/// A start that is later than the clock is a tick too late.
fn ask_late(act: &Act, desk: &mut Desk) -> Told {
    with(act, desk, |told, desk| {
        if matches!(act, Act::Ask(_)) && granted(told) {
            let later = told.value > image::clock(desk.image.part());
            told.value += u64::from(later);
        }
    })
}

/// The period of slot 1 is not stretched.
fn admit_forgets(act: &Act, desk: &mut Desk) -> Told {
    let slot = image::slot_at(1);
    let kept = desk
        .image
        .part()
        .get(slot + 3..slot + 5)
        .map(<[u8]>::to_vec);
    with(act, desk, |told, desk| {
        if matches!(act, Act::Admit(_)) && granted(told) {
            let kept = kept.expect("an image was granted");
            desk.image.part_mut()[slot + 3..slot + 5].copy_from_slice(&kept);
        }
    })
}

/// The last byte of a card is not written.
fn card_short(act: &Act, desk: &mut Desk) -> Told {
    let fill = desk.fill();
    with(act, desk, |told, desk| {
        if matches!(act, Act::WriteCard(_)) && granted(told) {
            desk.out.part_mut()[told.value as usize - 1] = fill;
        }
    })
}

/// A broken image is refused where its slot begins.
fn image_slot(act: &Act, desk: &mut Desk) -> Told {
    with(act, desk, |told, _| {
        if *act == Act::Step && told.number == 11 && told.place > 9 {
            told.place -= told.place % 9;
        }
    })
}

/// Slot 3 is never ready.
fn ready_blind(act: &Act, desk: &mut Desk) -> Told {
    with(act, desk, |told, _| {
        if *act == Act::Ready && granted(told) {
            told.value &= !8;
        }
    })
}

/// A byte before a line's buffer is written.
fn line_outside(act: &Act, desk: &mut Desk) -> Told {
    with(act, desk, |told, desk| {
        if *act == Act::Answer && granted(told) {
            let other = desk.fill().wrapping_add(1);
            desk.out.guard(other);
        }
    })
}

/// A refused admission changes the stretched periods.
fn refusal_writes(act: &Act, desk: &mut Desk) -> Told {
    with(act, desk, |told, desk| {
        if matches!(act, Act::Admit(_)) && told.number == 5 {
            desk.stretched.part_mut()[told.place as usize] += 1;
        }
    })
}

/// What is told has the wrong kind of value in a bit that no answer uses.
fn lamp_wide(act: &Act, desk: &mut Desk) -> Told {
    with(act, desk, |told, _| {
        if matches!(act, Act::Lamp(number) if number >> 63 == 1) {
            told.value |= 1 << 40;
        }
    })
}

/// The request that a card carries loses the period of slot 1.
fn reading_loses(act: &Act, desk: &mut Desk) -> Told {
    with(act, desk, |told, desk| {
        if *act == Act::ReadCard && granted(told) {
            desk.numbers.part_mut()[1] = 0;
        }
    })
}

/// The line in slot 0 is marked TB, and its numbers stay in the old order.
fn order_kept(act: &Act, desk: &mut Desk) -> Told {
    with(act, desk, |told, desk| {
        if *act == Act::Rewrite && granted(told) && told.place & 1 == 1 {
            let numbers = desk.card.part()[18..22].to_vec();
            desk.out.part_mut()[18..22].copy_from_slice(&numbers);
        }
    })
}

/// Of the slots that are reordered the lowest alone is named.
fn lowest_named(act: &Act, desk: &mut Desk) -> Told {
    with(act, desk, |told, _| {
        if *act == Act::Rewrite && granted(told) {
            told.place &= told.place.wrapping_neg();
        }
    })
}

#[test]
fn each_fault_is_found_and_made_a_short_history_that_can_be_done_again() {
    let faults: [Fault; 12] = [
        ("step stands", step_stands, 2),
        ("ask late", ask_late, 5),
        ("admit forgets", admit_forgets, 3),
        ("card short", card_short, 2),
        ("image slot", image_slot, 2),
        ("ready blind", ready_blind, 2),
        ("line outside", line_outside, 1),
        ("refusal writes", refusal_writes, 2),
        ("lamp wide", lamp_wide, 1),
        ("reading loses", reading_loses, 2),
        ("order kept", order_kept, 2),
        ("lowest named", lowest_named, 2),
    ];
    let others = counts::FAULTS.into_iter().chain(leaving::FAULTS);
    let others = others.chain(late::FAULTS).chain(last::FAULTS);
    for (name, library, most) in faults.into_iter().chain(others) {
        let mut tally = Tally::default();
        let text = compared(library, CALLS, SEED, &mut tally).expect(name);
        let operations = text.lines().filter(|line| !line.starts_with('#')).count();
        assert!(operations <= most, "{name}:\n{text}");
        let again = replay::replayed(library, &text);
        assert_eq!(again, Ok((text.clone(), false)), "{name}");
        let right = replay::replayed(should, &text).expect(name);
        assert!(right.1, "{name}");
    }
}

/// The operations of some drawn histories.
fn drawn() -> Vec<Operation> {
    let (mut random, mut tally) = (Random::new(SEED), Tally::default());
    let mut all = Vec::new();
    for _ in 0..50 {
        let mut history = Drawn::new(should, &mut random, &mut tally);
        history.history().expect("the rules alone");
        all.append(&mut history.operations);
    }
    all
}

#[test]
fn every_operation_is_read_as_it_is_written() {
    for operation in drawn() {
        let line = operation.to_string();
        assert_eq!(Operation::from_line(&line), Some(operation), "{line}");
    }
}

#[test]
fn a_line_that_is_no_operation_is_refused() {
    let lines = [
        "",
        "stap",
        "step x",
        "step -1",
        "ask 1",
        "ask 1 65536",
        "slot 16 nothing",
        "slot 0",
        "slot 0 runs 1 2 3",
        "slot 0 waits 1 2 3 4",
        "slot 16 had 1",
        "slot 0 had",
        "slot 0 had -1",
        "slot 0 had 1 2",
        "idle",
        "idle 18446744073709551616",
        "departed",
        "departed -1",
        "slot 0 leaves 1 2 3",
        "slot 0 leaves",
        "leave",
        "leave -1",
        "leave 18446744073709551616",
        "leave 1 2",
        "counts 1",
        "last",
        "last 256",
        "last -1",
        "last nobody",
        "last 1 2",
        "byte 1 256",
        "card 1",
        "card XY",
        "more 123",
        "stretched x",
        "lend 3",
        "lamp",
        "stretched 0 0 0 0 0 0 0 0 0 0 0 0 0 0 0 0 0",
        "clock 18446744073709551616",
        "empty 1",
        "table 1",
    ];
    for line in lines {
        assert_eq!(Operation::from_line(line), None, "{line}");
    }
    assert!(
        replay::replayed(should, "step\nstap\n").is_err_and(|error| error.starts_with("line 2:"))
    );
}

#[test]
fn a_wanted_image_is_laid() {
    let mut random = Random::new(SEED);
    let random = &mut random;
    let mut beside = Beside::new(should);
    for round in 0..20_000 {
        let (mut table, _) = draw::any(random);
        draw_leaving::any(random, &mut table);
        draw_counts::any(random, &mut table);
        draw_last::any(random, &mut table);
        let image = image::bytes(&table);
        let wanted = match round % 4 {
            0 => damage::no_image(random),
            1 => damage::image(random, &image),
            _ => image,
        };
        for operation in laid::image(beside.desk.image.part(), &wanted) {
            beside.operate(&operation).expect("nothing is called");
        }
        assert_eq!(beside.desk.image.part(), wanted);
    }
}

#[test]
fn a_difference_among_steps_says_which() {
    let text = "slot 0 runs 1 4 3 1\nslot 2 runs 2 4 0 2\nstep 4\n";
    let (said, same) = replay::replayed(step_stands, text).expect("a history");
    let wanted = "step 4\n# steps before it: 1\n# table clock 1, ";
    assert!(!same && said.contains(wanted), "{said}");
}

/// R103: by how much it is late stands behind the place, and what differs in it is shown.
#[test]
fn a_history_says_by_how_much_it_is_late() {
    let text = "slot 0 runs 5 20 17 5\nslot 1 runs 10 20 0 0\nstretched 20 20\nask 1 4";
    let said = format!("{text}: refused 10 0 3 2\nadmit 1 4: refused 10 0 3 2\n");
    assert_eq!(replay::replayed(should, &said), Ok((said.clone(), true)));
    let explained = "\n# told number 10 place 0 value 0 tick 2 excess 3\n\
                     # by the rules number 10 place 0 value 0 tick 3 excess 2\n";
    let wrong = replay::replayed(late::exchanged, &said);
    assert_eq!(wrong, Ok((format!("{text}{explained}"), false)));
}

#[test]
fn a_history_says_what_it_was_told() {
    let text = "# a remark\n\nadmit 8 16: anything\nstretched 16\nadmit 8 16\nstep 8\nready\ncounts\nleave 1\nleave 1\n\
                table\nstep 8\ntable\nleave 18446744073709551615\nidle 1\nslot 3 had 2\n\
                counts\nstep\nbyte 0 1\nstep 2\ntable\n";
    let said = "# a remark\n\nadmit 8 16: start 0 slot 0\nstretched 16\nadmit 8 16: start 0 slot 1\nstep 8: 00000000\n\
                ready: word 2\ncounts: clock 8, slot 0 had 8\nleave 1: gone in 8\nleave 1: refused 16 1\n\
                table: clock 8, slot 0 runs 8 16 8 0, slot 1 leaves 8 16 8 8, slot 0 had 8, last 0\nstep 8: 11111111\n\
                table: clock 16, slot 0 runs 8 16 0 8, slot 0 had 8, departed 8\n\
                leave 18446744073709551615: refused 16 18446744073709551615\nidle 1\nslot 3 had 2\n\
                counts: clock 16, slot 0 had 8, slot 3 had 2, idle 1, departed 8\nstep: refused 4 0\n\
                byte 0 1\nstep 2: refused 11 0\ntable: refused 11 0\n";
    assert_eq!(replay::replayed(should, text), Ok((said.to_string(), true)));
    assert_eq!(replay::replayed(should, said), Ok((said.to_string(), true)));
}
