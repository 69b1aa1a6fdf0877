//! Random calls on random images: the lowest number that applies is returned, a
//! refused call changes no byte, and an accepted one leaves the form whole.

use model::calls::{perform, Answer, Call};
use model::control::{count, has, Control};
use model::images::{random_call, random_image};
use model::image::*;
use model::random::Random;
use model::sites::{sites, Placement};

/// Refusal 3.
fn outside_range(call: &Call) -> bool {
    let no_transaction = |number: u8| number == 0 || number > 15;
    match *call {
        Call::Start { .. } | Call::Place { .. } | Call::Settle | Call::State => false,
        Call::Begin { transaction, home } => no_transaction(transaction) || home > 7,
        Call::Get { transaction, record } | Call::Delete { transaction, record } => {
            no_transaction(transaction) || record > 511
        }
        Call::Store { transaction, record, value } => {
            no_transaction(transaction) || record > 511 || value == 65_535
        }
        Call::Commit { transaction } | Call::Rollback { transaction } => no_transaction(transaction),
        Call::Fit { card } | Call::Withdraw { card } | Call::Fail { card } | Call::Load { card } => card > 7,
        Call::Move { card, block } => card > 7 || block > 63,
    }
}

/// Refusal 7.
fn locked_by_other(image: &[u8], control: &Control, transaction: u8, record: u16) -> bool {
    let (block, place) = (record as usize / 8, record as usize % 8);
    control.placements.iter().any(|placement| {
        sites(*placement, block).iter().any(|card| {
            let lock = read_slot(image, *card, block, place).lock;
            !has(control.failed, *card) && held(image, *card, block) && lock != 0 && lock != transaction
        })
    })
}

/// Refusal 13.
fn unsettled(image: &[u8], control: &Control) -> bool {
    (0..BLOCKS).any(|block| {
        let on = |card: usize| has(control.working, card) && held(image, card, block);
        let pair = sites(control.newest(), block);
        let spread = (0..CARDS).any(|card| on(card) && !pair.contains(&card));
        spread || on(pair[0]) != on(pair[1])
    })
}

/// Lines 4 to 20 of the table, each on its own, for numbers in their ranges.
fn applies(number: u8, image: &[u8], control: &Control, call: &Call) -> bool {
    let open = |t: u8| control.homes[t as usize].is_some();
    let in_some = |card: u8| control.placements.iter().any(|placement| has(placement.mask, card as usize));
    let works = |card: u8| has(control.working, card as usize);
    match (number, *call) {
        (4, _) => control.stopped && !matches!(call, Call::Fail { .. }),
        (
            5,
            Call::Get { transaction, .. }
            | Call::Store { transaction, .. }
            | Call::Delete { transaction, .. }
            | Call::Commit { transaction }
            | Call::Rollback { transaction },
        ) => !open(transaction),
        (6, Call::Begin { transaction, .. }) => open(transaction),
        (
            7,
            Call::Get { transaction, record }
            | Call::Store { transaction, record, .. }
            | Call::Delete { transaction, record },
        ) => locked_by_other(image, control, transaction, record),
        (8, Call::Fit { card }) => works(card) || in_some(card),
        (8, Call::Withdraw { card }) => !works(card) || in_some(card),
        (8, Call::Begin { home, .. }) => !has(control.newest().mask, home as usize),
        (8, Call::Fail { card } | Call::Move { card, .. } | Call::Load { card }) => !works(card),
        (9, Call::Place { mask }) => {
            let again = Placement::by_rails(mask) == control.newest();
            count(mask) < 2 || mask & control.working != mask || again
        }
        (10, Call::Place { .. }) => control.placements.len() > 2,
        (11, Call::Move { card, block }) => !held(image, card as usize, block as usize),
        (12, Call::Move { card, block }) => {
            (0..8).any(|place| read_slot(image, card as usize, block as usize, place).lock != 0)
        }
        (13, Call::Settle) => unsettled(image, control),
        (14, Call::Withdraw { card }) => control.homes.contains(&Some(card)),
        (20, Call::Place { .. }) => control.serial > 16_776_999,
        _ => false,
    }
}

#[test]
fn lowest_number_and_no_change() {
    let mut random = Random::new(77);
    let mut refused = [0; 21];
    let mut accepted = 0;
    for _ in 0..3_000 {
        let mut image = random_image(&mut random);
        for _ in 0..40 {
            let call = random_call(&mut random);
            let before = image.clone();
            let answer = perform(&mut image, &call);
            let wanted = match (call, Control::read(&before)) {
                (Call::Start { mask }, _) => (count(mask) < 2).then_some(9),
                (_, None) => Some(2),
                (_, Some(_)) if outside_range(&call) => Some(3),
                (_, Some(control)) => (4..21).find(|n| applies(*n, &before, &control, &call)),
            };
            match answer {
                Answer::Refused(number) => {
                    assert_eq!(Some(number), wanted, "{call:?}");
                    assert!(image == before, "{call:?} {answer:?}");
                    refused[number as usize] += 1;
                }
                _ => {
                    assert_eq!(wanted, None, "{call:?} {answer:?}");
                    assert!(Control::read(&image).is_some(), "{call:?} {answer:?}");
                    accepted += 1;
                }
            }
            if matches!(call, Call::Start { .. } | Call::Fail { .. }) {
                image = before;
            }
        }
    }
    assert!(accepted > 10_000, "{accepted}");
    for number in (2..15).chain([20]) {
        assert!(refused[number] > 20, "{number}: {refused:?}");
    }
}

#[test]
fn any_length_and_contents() {
    let mut random = Random::new(78);
    for _ in 0..2_000 {
        let length = random.one_of(&[0, 5, 31, 32, 100, LENGTH - 1, LENGTH, LENGTH + 1]);
        let mut image = vec![0; length];
        random.fill(&mut image);
        let before = image.clone();
        let call = random_call(&mut random);
        if let Answer::Refused(number) = perform(&mut image, &call) {
            assert_eq!(number == 1, length != LENGTH);
            assert!(image == before);
        }
    }
}
