//! Libraries that let lines go wrongly (R100 to R102), or take a line that leaves for another (R9, R10, R25, R46, R53).

use super::{granted, table, with, Fault};
use crate::boundary::{should, Act, Desk, Told};
use crate::history::operation::Operation;
use crate::image;
use crate::types::{Content, Follows, Request, Run, Table, IDLE, LAST_TICK, SLOTS};

pub const FAULTS: [Fault; 17] = [
    ("gone at once", gone_at_once, 2),
    ("a waiting line stays", waiting_stays, 2),
    ("a waiting line's count stays", waiting_count_stays, 4),
    ("number cut", number_cut, 2),
    ("place cut", place_cut, 1),
    ("let go twice", let_go_twice, 2),
    ("16 before 4", sixteen_before_4, 2),
    ("15 tested", fifteen_tested, 2),
    ("renews all the same", renews_all_the_same, 2),
    ("a count stays", count_stays, 4),
    ("last tick lost", last_tick_lost, 2),
    ("empty slots depart", empty_slots_depart, 4),
    ("asked as if it renewed", asked_as_renewing, 6),
    ("demand taken back", demand_taken_back, 6),
    ("stretched", stretched, 3),
    ("read as TB", read_as_tb, 2),
    ("written as TB", written_as_tb, 2),
];

/// A change of what a granted call of leave leaves, with the slot and what it held.
pub fn left(act: &Act, desk: &mut Desk, change: fn(&mut Desk, usize, &Table)) -> Told {
    let before = table(desk);
    with(act, desk, |told, desk| {
        if let (Act::Leave(number), true, Some(table)) = (act, granted(told), before) {
            change(desk, *number as usize, &table);
        }
    })
}

/// A running line does not stay up to its end.
fn gone_at_once(act: &Act, desk: &mut Desk) -> Told {
    left(act, desk, |desk, slot, _| {
        Operation::Slot(slot, Content::Nothing).lay(desk);
    })
}

/// A waiting line cannot be let go.
fn waiting_stays(act: &Act, desk: &mut Desk) -> Told {
    let mut after = desk.clone();
    let told = should(act, &mut after);
    match (act, table(desk)) {
        (Act::Leave(number), Some(table))
            if granted(&told) && table.slots[*number as usize].is_waiting() =>
        {
            Told::refused(16_u64, *number)
        }
        _ => should(act, desk),
    }
}

/// What stands beside a waiting line is not had by a line that is gone.
fn waiting_count_stays(act: &Act, desk: &mut Desk) -> Told {
    left(act, desk, |desk, slot, table| {
        if table.slots[slot].is_waiting() {
            Operation::Count(slot, table.counts.had[slot]).lay(desk);
            Operation::Count(IDLE + 1, table.counts.departed).lay(desk);
        }
    })
}

/// Of the number the lower 32 bits are looked at.
fn number_cut(act: &Act, desk: &mut Desk) -> Told {
    match act {
        Act::Leave(number) => should(&Act::Leave(number & 0xFFFF_FFFF), desk),
        _ => should(act, desk),
    }
}

/// Of the number the lower 32 bits are told.
fn place_cut(act: &Act, desk: &mut Desk) -> Told {
    with(act, desk, |told, _| {
        if told.number == 16 {
            told.place &= 0xFFFF_FFFF;
        }
    })
}

/// A line that leaves may be let go again.
fn let_go_twice(act: &Act, desk: &mut Desk) -> Told {
    with(act, desk, |told, desk| {
        let slot = |table: Table| table.slots.get(told.place as usize).copied();
        match table(desk).and_then(slot) {
            Some(Content::Running(run)) if told.number == 16 => {
                *told = Told::value((run.period - run.age).into());
            }
            _ => {}
        }
    })
}

/// A number that is no slot's is told before a table that is not in order.
fn sixteen_before_4(act: &Act, desk: &mut Desk) -> Told {
    with(act, desk, |told, _| match act {
        Act::Leave(number) if told.number == 4 && *number >= SLOTS as u64 => {
            *told = Told::refused(16_u64, *number);
        }
        _ => {}
    })
}

/// No line is let go at the last tick.
fn fifteen_tested(act: &Act, desk: &mut Desk) -> Told {
    match (act, table(desk)) {
        (Act::Leave(_), Some(table)) if table.clock >= LAST_TICK => Told::refused(15_u64, 0),
        _ => should(act, desk),
    }
}

/// A change of what a step leaves after which a line is gone, with its slot, the line before and the slot that ran.
pub fn gone(act: &Act, desk: &mut Desk, change: fn(&mut Desk, usize, &Table, u64)) -> Told {
    let before = table(desk);
    with(act, desk, |told, desk| {
        let (Act::Step, true, Some(before)) = (act, granted(told), before) else {
            return;
        };
        for slot in (0..SLOTS).filter(|slot| before.slots[*slot].is_leaving()) {
            if image::content(desk.image.part(), slot) == Content::Nothing {
                change(desk, slot, &before, told.value);
            }
        }
    })
}

/// A period follows the last one.
fn renews_all_the_same(act: &Act, desk: &mut Desk) -> Told {
    gone(act, desk, |desk, slot, before, _| {
        if let Content::Running(run) = before.slots[slot] {
            let (age, remaining, follows) = (0, run.need, Follows::Renews);
            let renewed = Content::Running(Run {
                age,
                remaining,
                follows,
                ..run
            });
            Operation::Slot(slot, renewed).lay(desk);
        }
    })
}

/// What a line has had that is gone still stands beside its slot.
fn count_stays(act: &Act, desk: &mut Desk) -> Told {
    gone(act, desk, |desk, slot, before, ran| {
        let had = before.counts.had[slot] + u64::from(ran == slot as u64);
        Operation::Count(slot, had).lay(desk);
        Operation::Count(IDLE + 1, before.counts.departed).lay(desk);
    })
}

/// The tick with which a line goes is no line's.
fn last_tick_lost(act: &Act, desk: &mut Desk) -> Told {
    gone(act, desk, |desk, slot, _, ran| {
        let departed = image::count(desk.image.part(), IDLE + 1);
        let less = u64::from(ran == slot as u64);
        Operation::Count(IDLE + 1, departed - less).lay(desk);
    })
}

/// With a line that is gone all counts beside empty slots go.
fn empty_slots_depart(act: &Act, desk: &mut Desk) -> Told {
    gone(act, desk, |desk, _, before, _| {
        for slot in (0..SLOTS).filter(|slot| before.slots[*slot] == Content::Nothing) {
            let image = desk.image.part();
            let departed = image::count(image, IDLE + 1) + image::count(image, slot);
            Operation::Count(slot, 0).lay(desk);
            Operation::Count(IDLE + 1, departed).lay(desk);
        }
    })
}

/// Another start for what is granted one.
fn started(act: &Act, desk: &mut Desk, start: fn(&Table, &Request) -> Option<u64>) -> Told {
    with(act, desk, |told, desk| {
        if let (Act::Ask(line), true, Some(table)) = (act, granted(told), table(desk)) {
            told.value = start(&table, &desk.request(line)).unwrap_or(told.value);
        }
    })
}

/// A line that leaves has further ends.
fn asked_as_renewing(act: &Act, desk: &mut Desk) -> Told {
    started(act, desk, |table, request| {
        crate::rules::ask_before_last_end(&table.renewing(), request).ok()
    })
}

/// R10 with the remaining ticks of a line that leaves demanded at its end, and not after it.
fn taken_back(run: &Run, stretched: u16, t: i64) -> i64 {
    let since = t - i64::from(stretched) + i64::from(run.age);
    match run.follows {
        _ if since < 0 => 0,
        Follows::Leaves if since > 0 => 0,
        Follows::Leaves => run.remaining.into(),
        Follows::Renews => {
            i64::from(run.remaining) + i64::from(run.need) * (since / i64::from(stretched))
        }
    }
}

/// What a line that leaves is owed is no demand any more when it is gone.
fn demand_taken_back(act: &Act, desk: &mut Desk) -> Told {
    started(act, desk, |table, request| {
        let lines: Vec<(usize, &Run)> = table.running().collect();
        let ends = |(slot, run): &(usize, &Run)| i64::from(request.stretched[*slot] - run.age);
        let last = lines.iter().map(ends).max()?;
        let excess = |start: i64, t: i64| {
            let demand = |(slot, run): &(usize, &Run)| taken_back(run, request.stretched[*slot], t);
            let periods = (t - start).max(0) / i64::from(request.period);
            let new = i64::from(request.need) * periods;
            lines.iter().map(demand).sum::<i64>() + new - t
        };
        let smooth = |start: &i64| (0..last.min(300)).all(|t| excess(*start, t) <= 0);
        let start = (0..last).find(smooth)?;
        (last <= 300).then_some(table.clock + start as u64)
    })
}

/// A longer period of a line that leaves is no ground, and not looked at.
fn stretched(act: &Act, desk: &mut Desk) -> Told {
    let told = should(act, &mut desk.clone());
    let (Act::Ask(_), 5, Some(table)) = (act, told.number, table(desk)) else {
        return should(act, desk);
    };
    let mut kept = desk.clone();
    for (slot, run) in table.running().filter(|(_, run)| run.leaves()) {
        let period = &mut kept.stretched.part_mut()[slot];
        *period = (*period).min(run.period);
    }
    should(act, &mut kept)
}

/// A line that leaves on a card renews in the table.
fn read_as_tb(act: &Act, desk: &mut Desk) -> Told {
    with(act, desk, |told, desk| {
        if let (Act::ReadCard, true, Some(read)) = (act, granted(told), table(desk)) {
            for (slot, content) in read.renewing().slots.into_iter().enumerate() {
                Operation::Slot(slot, content).lay(desk);
            }
        }
    })
}

/// R53: the last letter of TL is written as that of TB.
fn written_as_tb(act: &Act, desk: &mut Desk) -> Told {
    with(act, desk, |told, desk| {
        if let (Act::WriteCard(_), true, Some(table)) = (act, granted(told), table(desk)) {
            let mut at = 10;
            for content in table.slots {
                if content.is_leaving() {
                    desk.out.part_mut()[at + 1] = b'B';
                }
                at += if content == Content::Nothing { 2 } else { 12 };
            }
        }
    })
}
