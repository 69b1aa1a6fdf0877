//! Points of the rules that answers alone do not show.

use model::calls::{perform, started, Answer, Call};
use model::control::Control;
use model::edition::Edition;
use model::image::*;
use model::sites::{holders, sites, trail, Placement};

fn ok(image: &mut [u8], call: Call) {
    assert_eq!(perform(image, &call), Answer::Ok, "{call:?}");
}

fn old(mask: u8) -> Placement {
    Placement::chained(mask)
}

fn by_rails(mask: u8) -> Placement {
    Placement::by_rails(mask)
}

#[test]
fn site_order_and_trail() {
    assert_eq!(sites(old(0xE0), 0), [0, 1]);
    assert_eq!(sites(old(0xFF), 63), [7, 0]);
    assert_eq!(sites(old(0x29), 4), [4, 7]);
    let placements = [0xF0, 0x90, 0xE0].map(old).to_vec();
    let control = Control { failed: 0x10, placements, ..Control::fresh(Edition::Today, old(0xE0)) };
    assert_eq!(trail(&control, 0), [0, 1, 0, 0, 1]);
    assert_eq!(trail(&control, 2), [2, 0, 2, 0]);
}

#[test]
fn trail_of_both_kinds() {
    let placements = vec![old(0xFC), by_rails(0xFC), by_rails(0xCC)];
    let control = Control { failed: 0x20, placements, ..Control::fresh(Edition::Today, by_rails(0xFC)) };
    // Cards 0 to 5, by the old choice and by rails; then 0, 1, 4 and 5.
    assert_eq!(trail(&control, 0), [0, 1, 0, 4, 0, 4]);
    assert_eq!(trail(&control, 1), [1, 1, 4, 1, 4]);
    assert_eq!(trail(&control, 4), [4, 5, 4, 0, 0, 4]);
}

#[test]
fn get_reads_the_first_holder_of_the_oldest_placement() {
    let mut image = started(0xF0);
    ok(&mut image, Call::Begin { transaction: 1, home: 0 });
    ok(&mut image, Call::Store { transaction: 1, record: 0, value: 5 });
    ok(&mut image, Call::Commit { transaction: 1 });
    ok(&mut image, Call::Place { mask: 0x70 });
    ok(&mut image, Call::Begin { transaction: 1, home: 1 });
    // Block 0: sites 0, 1 and then 1, 2. The copies are made to differ.
    for (card, value) in [(0, 10), (1, 11), (2, 12)] {
        image[block_at(card, 0).start] = 0x80;
        change_slot(&mut image, card, 0, 0, |slot| {
            slot.present = true;
            slot.value = value;
        });
    }
    let control = Control::read(&image).unwrap();
    assert_eq!(holders(&image, &control, 0), [0, 1, 2]);
    let get = Call::Get { transaction: 1, record: 0 };
    assert_eq!(perform(&mut image, &get), Answer::Value(10));
    image[block_at(0, 0).start] = 0x7F;
    assert_eq!(perform(&mut image, &get), Answer::Value(11));
    // A lock of its own on a later holder alone does not show its pending state.
    change_slot(&mut image, 2, 0, 0, |slot| slot.set_pending(1, Some(77)));
    assert_eq!(perform(&mut image, &get), Answer::Value(11));
    // Another's lock on any holder refuses.
    change_slot(&mut image, 2, 0, 0, |slot| slot.set_pending(2, Some(77)));
    assert_eq!(perform(&mut image, &get), Answer::Refused(7));
}

#[test]
fn marks_of_failed_cards() {
    let mut image = started(0xF0);
    assert_eq!(perform(&mut image, &Call::Fail { card: 3 }), Answer::Placed(0xE0));
    assert_eq!(perform(&mut image, &Call::Settle), Answer::Retired(1));
    assert_eq!(image[..8], [0x10, 0xE0, 0, 0, 0, 0xE0, 0x10, 0x80]);
    ok(&mut image, Call::Fit { card: 7 });
    ok(&mut image, Call::Withdraw { card: 7 });
    assert_eq!(image[..8], [0x10, 0xE0, 0, 0, 0, 0xE0, 0x10, 0x80]);
    image[table_at(3)].fill(0xEE);
    ok(&mut image, Call::Fit { card: 3 });
    assert_eq!(image[..8], [0x10, 0xE0, 0, 0, 0, 0xF0, 0, 0x80]);
    assert!(image[table_at(3)].iter().all(|byte| *byte == 0));
}

#[test]
fn what_is_not_held_is_not_read() {
    let mut image = started(0xE0);
    ok(&mut image, Call::Begin { transaction: 1, home: 0 });
    image[TABLES].fill(0xFF);
    for card in 0..CARDS {
        for block in 0..BLOCKS {
            image[block_at(card, block).start] = 0x7F;
        }
    }
    assert_eq!(perform(&mut image, &Call::Load { card: 0 }), Answer::Load(0));
    assert_eq!(perform(&mut image, &Call::Get { transaction: 1, record: 0 }), Answer::Absent);
    assert_eq!(perform(&mut image, &Call::Move { card: 0, block: 0 }), Answer::Refused(11));
    assert_eq!(perform(&mut image, &Call::Settle), Answer::Retired(0));
    // A new block is written whole.
    ok(&mut image, Call::Store { transaction: 1, record: 1, value: 0 });
    let mut wanted = [0; BLOCK_BYTES];
    wanted[0] = 0x80;
    wanted[6..11].copy_from_slice(&[0, 0, 0x0C, 0, 0]);
    assert_eq!(image[block_at(0, 0)], wanted);
    assert_eq!(image[block_at(1, 0)], wanted);
    assert!(image[block_at(2, 0)].iter().skip(1).all(|byte| *byte == 0xFF));
    // Unheld blocks keep their bytes at a commit.
    ok(&mut image, Call::Commit { transaction: 1 });
    assert!(image[block_at(2, 0)].iter().skip(1).all(|byte| *byte == 0xFF));
}

#[test]
fn commit_takes_locks_off_the_trail_too() {
    let mut image = started(0xF0);
    ok(&mut image, Call::Begin { transaction: 1, home: 0 });
    // Card 3 is no site of block 0, yet holds it.
    image[block_at(3, 0).start] = 0x80;
    change_slot(&mut image, 3, 0, 0, |slot| slot.set_pending(1, Some(9)));
    assert_eq!(perform(&mut image, &Call::Get { transaction: 1, record: 0 }), Answer::Absent);
    ok(&mut image, Call::Commit { transaction: 1 });
    assert_eq!(read_slot(&image, 3, 0, 0).committed(), Some(9));
    assert_eq!(read_slot(&image, 3, 0, 0).lock, 0);
}

#[test]
fn stop_rolls_back_on_working_cards_only() {
    let mut image = started(0xC0);
    ok(&mut image, Call::Begin { transaction: 1, home: 0 });
    ok(&mut image, Call::Begin { transaction: 2, home: 1 });
    ok(&mut image, Call::Store { transaction: 1, record: 0, value: 9 });
    ok(&mut image, Call::Store { transaction: 2, record: 8, value: 9 });
    // A lock by a number that is not open stays.
    change_slot(&mut image, 0, 0, 3, |slot| slot.set_pending(7, Some(1)));
    let left = image[table_at(1)].to_vec();
    assert_eq!(perform(&mut image, &Call::Fail { card: 1 }), Answer::Stopped);
    assert_eq!(image[..23], [0x90, 0xC0, 0, 0, 0, 0x80, 0x40, 0x80, 0, 0, 0, 0, 0, 0, 0, 0, 0, 0, 0, 0, 0, 0, 0]);
    assert!(image[table_at(1)] == left[..]);
    assert_eq!(read_slot(&image, 0, 0, 0).lock, 0);
    assert_eq!(read_slot(&image, 0, 1, 0).lock, 0);
    assert_eq!(read_slot(&image, 0, 0, 3).lock, 7);
    // A further fail marks the card in the control part, and nothing else changes.
    let mut wanted = image.clone();
    wanted[5..7].copy_from_slice(&[0, 0xC0]);
    assert_eq!(perform(&mut image, &Call::Fail { card: 0 }), Answer::Stopped);
    assert!(image == wanted);
}

#[test]
fn absences_have_value_zero() {
    let mut image = started(0xC0);
    ok(&mut image, Call::Begin { transaction: 1, home: 0 });
    ok(&mut image, Call::Store { transaction: 1, record: 0, value: 9 });
    ok(&mut image, Call::Delete { transaction: 1, record: 0 });
    assert_eq!(image[slot_at(0, 0, 0)], [0, 0, 0x08, 0, 0]);
    // A pending absence with a value, as no call leaves it.
    image[slot_at(0, 0, 0)].copy_from_slice(&[0, 0, 0x08, 0, 0x24]);
    ok(&mut image, Call::Commit { transaction: 1 });
    assert_eq!(image[slot_at(0, 0, 0)], [0, 0, 0, 0, 0]);
}
