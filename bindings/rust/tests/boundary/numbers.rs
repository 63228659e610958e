//! R63: all five numbers of a result, those too that the rest of the crate leaves out.

use crate::lent::Lent;
use crate::samples::{
    admitted, case_a, case_j, counted, image, leaving, BENCH, BENCH_J, CARD_A, CARD_A_OLD, CARD_J,
    CARD_LEAVING, DEPARTED, IDLE, LAST_TICK,
};
use trimthuel::numbers::{self, Numbers, NO_SLOT};
use trimthuel::{Request, CARD_MAX, COUNTS, LINE_MAX, REQUEST_SIZE, SLOTS, TABLE_SIZE};

/// Number, place, value, tick, excess.
#[track_caller]
fn is_late(told: Numbers, wanted: [u64; 5]) {
    let Numbers {
        number,
        place,
        value,
        tick,
        excess,
    } = told;
    assert_eq!([number, place, value, tick, excess], wanted);
}

/// Number, place, value; R103: tick and excess are 0 wherever the number is not 10.
#[track_caller]
fn is(told: Numbers, [number, place, value]: [u64; 3]) {
    is_late(told, [number, place, value, 0, 0]);
}

/// A call with a request's numbers; the stretched periods are lent, and stay.
fn with(request: Request, call: impl FnOnce(u16, u16, &[u16; SLOTS]) -> Numbers) -> Numbers {
    let mut lent = Lent::new(&request.stretched);
    let stretched = lent.lend().first_chunk().expect("sixteen periods");
    let told = call(request.need, request.period, stretched);
    lent.holds(&request.stretched);
    told
}

#[test]
fn ask_and_admit() {
    for (request, wanted) in [(BENCH, [0, 2, 13]), (BENCH.stretch(1, 15), [5, 1, 0])] {
        let mut table = case_a();
        is(
            with(request, |c, t, all| numbers::ask(&table, c, t, all)),
            wanted,
        );
        is(
            with(request, |c, t, all| numbers::admit(&mut table, c, t, all)),
            wanted,
        );
    }
}

/// R103: what 10 says; of a card the line is what was asked for, and the call is granted.
#[test]
fn late() {
    let (mut table, wanted) = (case_j(), [10, 0, 0, 3, 2]);
    is_late(
        with(BENCH_J, |c, t, all| numbers::ask(&table, c, t, all)),
        wanted,
    );
    is_late(
        with(BENCH_J, |c, t, all| numbers::admit(&mut table, c, t, all)),
        wanted,
    );
    assert_eq!(table, case_j());
    is_late(numbers::run(CARD_J, 0), wanted);
    is(numbers::answer(CARD_J, &mut [0; LINE_MAX]), [0, 0, 17]);
    is(numbers::answer(CARD_J, &mut [0; 16]), [13, 0, 0]);
    is(numbers::rewrite(CARD_J, &mut [0; CARD_MAX]), [0, 0, 40]);
}

#[test]
fn step_and_ready() {
    is(numbers::step(&mut case_a()), [0, 0, 1]);
    is(numbers::step(&mut image(0, &[])), [0, 0, NO_SLOT]);
    is(numbers::step(&mut image(LAST_TICK, &[])), [15, 0, 0]);
    is(numbers::step(&mut case_a()[..80]), [11, 80, 0]);
    is(numbers::ready(&case_a()), [0, 0, 0b10]);
    is(numbers::ready(&case_a()[..80]), [11, 80, 0]);
}

/// R102: a refusal's place is the number as it was named.
#[test]
fn leave() {
    is(numbers::leave(&mut case_a(), 1), [0, 0, 8]);
    is(numbers::leave(&mut admitted(), 0), [0, 0, 24]);
    is(numbers::leave(&mut admitted(), 2), [0, 0, 0]);
    let gone = image(0, &[(0, leaving(1, 4, 3, 0))]);
    let over = counted(gone, &[(DEPARTED, 1)]);
    for number in [0, 1, 15, 16, 17, 1 << 16, 1 << 32, u64::MAX] {
        let [mut whole, mut cut, mut over] = [gone, gone, over];
        is(numbers::leave(&mut whole, number), [16, number, 0]);
        is(numbers::leave(&mut cut[..80], number), [11, 80, 0]);
        is(numbers::leave(&mut over, number), [4, 0, 0]);
    }
}

/// R98: what is told, and what the eighteen lent numbers are then.
fn shown(table: &[u8]) -> (Numbers, [u64; COUNTS]) {
    let mut lent = Lent::new(&[7; COUNTS]);
    let counts: &mut [u64; COUNTS] = lent.lend().try_into().expect("eighteen numbers");
    let told = numbers::counts(table, counts);
    let after = *counts;
    lent.holds(&after);
    (told, after)
}

#[test]
fn counts() {
    let most = [
        (15, u64::MAX),
        (IDLE, u64::MAX - 1),
        (DEPARTED, u64::MAX - 2),
    ];
    let table = counted(counted(case_a(), &[(0, 4)]), &most);
    let (told, after) = shown(&table);
    is(told, [0, 0, 8]);
    let mut wanted = [0; COUNTS];
    wanted[0] = 4;
    for (place, ticks) in most {
        wanted[place] = ticks;
    }
    assert_eq!(after, wanted);
    is(shown(&image(u64::MAX, &[])).0, [0, 0, u64::MAX]);
    for (broken, at) in [(&table[..297], 297), (&[0; 298], 0), (&[], 0)] {
        let (told, after) = shown(broken);
        is(told, [11, at, 0]);
        assert_eq!(after, [7; COUNTS]);
    }
}

#[test]
fn what_is_written() {
    is(numbers::empty(&mut [0; TABLE_SIZE]), [0, 0, 298]);
    is(numbers::empty(&mut [0; TABLE_SIZE - 1]), [13, 0, 0]);
    for (table, room, wanted) in [
        (case_a(), 40, [0, 0, 40]),
        (case_a(), 39, [13, 0, 0]),
        (admitted(), 40, [3, 2, 0]),
    ] {
        let card = &mut [0; CARD_MAX][..room];
        let written = with(BENCH, |c, t, all| {
            numbers::write_card(&table, c, t, all, card)
        });
        is(written, wanted);
    }
    let read =
        |card, room| numbers::read_card(card, &mut [0; TABLE_SIZE][..room], &mut [0; REQUEST_SIZE]);
    is(read(CARD_A, TABLE_SIZE), [0, 0, 298]);
    is(read(CARD_A, TABLE_SIZE - 1), [13, 0, 0]);
    is(read(&CARD_A[..39], TABLE_SIZE), [11, 34, 0]);
}

#[test]
fn whole_cards() {
    is(numbers::answer(CARD_A, &mut [0; LINE_MAX]), [0, 0, 11]);
    is(numbers::answer(CARD_A, &mut [0; 10]), [13, 0, 0]);
    is(numbers::rewrite(CARD_A, &mut [0; CARD_MAX]), [0, 0, 40]);
    is(numbers::rewrite(CARD_A_OLD, &mut [0; CARD_MAX]), [0, 3, 40]);
    is(numbers::rewrite(CARD_A_OLD, &mut [0; 39]), [13, 0, 0]);
    is(numbers::rewrite(CARD_LEAVING, &mut [0; 54]), [0, 8, 54]);
    is(
        numbers::rewrite(&CARD_A[..39], &mut [0; CARD_MAX]),
        [11, 34, 0],
    );
    is(numbers::run(CARD_A, 56), [0, 0, 53]);
    is(numbers::run(&CARD_A[..39], 56), [11, 34, 0]);
}
