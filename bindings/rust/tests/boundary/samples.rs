//! Tables as images, written from R81 alone, and cards.

use trimthuel::{Late, Refusal, Request, TABLE_SIZE};

pub type Image = [u8; TABLE_SIZE];

/// R7: the clock's last tick.
pub const LAST_TICK: u64 = 1 << 48;

/// R81: where a slot's nine bytes begin.
pub fn offset(slot: usize) -> usize {
    9 + 9 * slot
}

/// R81: a slot's kind and its four numbers.
pub type Line = (u8, [u16; 4]);

/// R3: C, T, age, remaining.
pub fn running(need: u16, period: u16, age: u16, remaining: u16) -> Line {
    (1, [need, period, age, remaining])
}

/// R3, R99: C, T, age, remaining of a line that leaves.
pub fn leaving(need: u16, period: u16, age: u16, remaining: u16) -> Line {
    (3, [need, period, age, remaining])
}

/// R3: C, T, wait.
pub fn waiting(need: u16, period: u16, wait: u16) -> Line {
    (2, [need, period, wait, 0])
}

/// R81: the image of a clock and some slots; the others hold nothing, nothing is counted, and the last slot is none.
pub fn image(clock: u64, lines: &[(usize, Line)]) -> Image {
    let mut image = [0; TABLE_SIZE];
    image[0] = 4;
    image[297] = NONE;
    image[1..9].copy_from_slice(&clock.to_le_bytes());
    for (slot, (kind, numbers)) in lines {
        let at = offset(*slot);
        image[at] = *kind;
        for (place, number) in (at + 1..).step_by(2).zip(numbers) {
            image[place..place + 2].copy_from_slice(&number.to_le_bytes());
        }
    }
    image
}

/// R81: where the idle count and the departed one, the last, stand among the counts.
pub const IDLE: usize = 16;
pub const DEPARTED: usize = 17;

/// R81: the same with some counts, each by its place.
pub fn counted(mut image: Image, counts: &[(usize, u64)]) -> Image {
    for (place, ticks) in counts {
        let at = 153 + 8 * place;
        image[at..at + 8].copy_from_slice(&ticks.to_le_bytes());
    }
    image
}

/// R105: the last slot that is none.
pub const NONE: u8 = 255;

/// R81: the same with another last slot.
pub fn ran_last(mut image: Image, slot: u8) -> Image {
    image[297] = slot;
    image
}

/// R67: the table of case A.
pub fn case_a() -> Image {
    image(8, &[(0, running(8, 16, 8, 0)), (1, running(8, 16, 8, 8))])
}

/// R67: the request of case A.
pub const BENCH: Request = Request::new(1, 4).stretch(0, 32).stretch(1, 16);

/// R42: case A after admit: the start is 13, so the new line waits 5 ticks.
pub fn admitted() -> Image {
    let lines = [
        (0, running(8, 32, 8, 0)),
        (1, running(8, 16, 8, 8)),
        (2, waiting(1, 4, 5)),
    ];
    image(8, &lines)
}

/// R59: the card of case A.
pub const CARD_A: &[u8] = b"CK\x08\0\0\0\0\0\0\0\
    TB\x08\0\x10\0\x20\0\x08\0\0\0\
    TB\x08\0\x10\0\x10\0\x08\0\x08\0\
    RQ\x01\0\x04\0";

/// R58: the same with both lines, and with the second alone, as the third generation wrote them.
pub const CARD_A_OLD: &[u8] = b"CK\x08\0\0\0\0\0\0\0\
    TA\x08\0\x10\0\x20\0\0\0\x08\0\
    TA\x08\0\x10\0\x10\0\x08\0\x08\0\
    RQ\x01\0\x04\0";
pub const CARD_A_MIXED: &[u8] = b"CK\x08\0\0\0\0\0\0\0\
    TB\x08\0\x10\0\x20\0\x08\0\0\0\
    TA\x08\0\x10\0\x10\0\x08\0\x08\0\
    RQ\x01\0\x04\0";

/// R92: the request of case A as eighteen numbers.
pub const NUMBERS_A: [u16; 18] = [32, 16, 0, 0, 0, 0, 0, 0, 0, 0, 0, 0, 0, 0, 0, 0, 1, 4];

/// R53: case E with a line that leaves: a TL, a TF, a TB and a TA record.
pub const CARD_LEAVING: &[u8] = b"CK\x28\0\0\0\0\0\0\0\
    TL\x01\0\x04\0\x04\0\0\0\x01\0\
    TF\
    TB\x10\0\x40\0\x40\0\x34\0\x08\0\
    TA\x10\0\x20\0\x40\0\0\0\x0C\0\
    RQ\x01\0\x04\0";

/// R72: its twin.
pub const CARD_LEAVING_TWIN: &[u8] = b"CK\x28\0\0\0\0\0\0\0\
    TL\x01\0\x04\0\x04\0\0\0\x01\0\
    TF\
    TB\x10\0\x40\0\x40\0\x34\0\x08\0\
    TB\x10\0\x20\0\x40\0\x0C\0\0\0\
    RQ\x01\0\x04\0";

/// R56: its table.
pub fn case_e_leaving() -> Image {
    let lines = [
        (0, leaving(1, 4, 0, 1)),
        (2, running(16, 64, 52, 8)),
        (3, running(16, 32, 12, 0)),
    ];
    image(40, &lines)
}

/// R67: the table of case J, its request and its card.
pub fn case_j() -> Image {
    image(0, &[(0, running(5, 20, 17, 5)), (1, running(10, 20, 0, 0))])
}
pub const BENCH_J: Request = Request::new(1, 4).stretch(0, 20).stretch(1, 20);
pub const CARD_J: &[u8] = b"CK\0\0\0\0\0\0\0\0\
    TB\x05\0\x14\0\x14\0\x11\0\x05\0\
    TB\x0A\0\x14\0\x14\0\0\0\0\0\
    RQ\x01\0\x04\0";

/// R103: no refusal but 10 says by how much it is late.
pub fn refused<T>(number: u16, place: usize) -> Result<T, Refusal> {
    let (place, late) = (place as u64, None);
    Err(Refusal {
        number,
        place,
        late,
    })
}

/// R103: refusal 10, and what it says.
pub fn late<T>(tick: u64, excess: u32) -> Result<T, Refusal> {
    let late = Some(Late { tick, excess });
    let (number, place) = (10, 0);
    Err(Refusal {
        number,
        place,
        late,
    })
}
