//! Change request A.7: cards go back to a stopped store, and fails while it is stopped.

use model::calls::{perform, started};
use model::control::{stamp, Control};
use model::image::*;
use model::queries::{ask, Query, Told};
use model::random::Random;
use model::returns::return_card;
use model::sites::members;
use model::table::place_by_table;
use model::Answer;
use model::Call::{self, *};

fn ok(image: &mut [u8], call: Call) {
    assert_eq!(perform(image, &call), Answer::Ok, "{call:?}");
}

fn stops(image: &mut [u8], cards: &[u8]) {
    for card in cards {
        assert_eq!(perform(image, &Fail { card: *card }), Answer::Stopped, "{card}");
    }
}

fn returns(image: &mut [u8], cards: &[u8]) {
    for card in cards {
        assert_eq!(return_card(image, *card), Answer::Ok, "{card}");
    }
}

fn refused(image: &[u8], card: u8, number: u8) {
    let mut after = image.to_vec();
    assert_eq!(return_card(&mut after, card), Answer::Refused(number), "{card}");
    assert!(after == image);
}

fn is_stopped(image: &[u8]) -> bool {
    ask(image, Query::Stopped) == Told::Number(1)
}

fn put_stamp(image: &mut [u8], card: usize, bytes: [u8; 4]) {
    image[stamp_at(card)].copy_from_slice(&bytes);
}

/// Cards 0 to 2; record 9 is committed on cards 1 and 2, and transaction 2 has changed it.
fn with_records() -> Vec<u8> {
    let mut image = started(0xE0);
    ok(&mut image, Begin { transaction: 1, home: 0 });
    ok(&mut image, Store { transaction: 1, record: 9, value: 4660 });
    ok(&mut image, Commit { transaction: 1 });
    ok(&mut image, Begin { transaction: 2, home: 0 });
    ok(&mut image, Store { transaction: 2, record: 9, value: 5 });
    image
}

/// Card 1 fails, so cards 0 and 2 are left; then these two fail, and the store stops.
fn all_failed() -> Vec<u8> {
    let mut image = with_records();
    assert_eq!(perform(&mut image, &Fail { card: 1 }), Answer::Placed(0xA0));
    stops(&mut image, &[2, 0]);
    image
}

#[test]
fn a_stop_is_resumed() {
    for order in [[0, 2], [2, 0]] {
        let mut image = all_failed();
        assert_eq!(image[..8], [0xA0, 0xE0, 0xA0, 0, 0, 0, 0xE0, 0xC0]);
        returns(&mut image, &order[..1]);
        assert!(is_stopped(&image));
        returns(&mut image, &order[1..]);
        assert_eq!(image[..8], [0x20, 0xE0, 0xA0, 0, 0, 0xA0, 0x40, 0xC0]);
        // What was committed is there, and what was open is rolled back.
        ok(&mut image, Begin { transaction: 3, home: 0 });
        assert_eq!(perform(&mut image, &Get { transaction: 3, record: 9 }), Answer::Value(4660));
        assert_eq!(perform(&mut image, &Get { transaction: 2, record: 9 }), Answer::Refused(5));
    }
}

/// The serial and the stamps stay, and so does every byte of other cards.
#[test]
fn bytes_of_a_return() {
    let mut image = all_failed();
    assert_eq!((image[23..26].to_vec(), image[stamp_at(1)].to_vec()), (vec![0, 0, 2], vec![0, 0, 1, 0xE0]));
    change_slot(&mut image, 2, 1, 1, |slot| slot.rest = 3);
    assert_eq!(read_slot(&image, 2, 1, 1).lock, 2);
    let mut wanted = image.clone();
    wanted[5..7].copy_from_slice(&[0x20, 0xC0]);
    wanted[slot_at(2, 1, 1)].copy_from_slice(&[0x89, 0x1A, 0, 0, 3]);
    returns(&mut image, &[2]);
    assert!(image == wanted);
}

/// Of a held block alone, whoever locked it; committed state and unnamed bits stay.
#[test]
fn locked_slots_are_freed() {
    let mut random = Random::new(1);
    let mut before = started(0xC0);
    stops(&mut before, &[0, 1]);
    random.fill(&mut before[block_at(0, 0).start..block_at(0, 63).end]);
    let mut image = before.clone();
    returns(&mut image, &[0]);
    let (mut freed, mut left) = (0, 0);
    for block in 0..BLOCKS {
        assert_eq!(image[block_at(0, block).start], before[block_at(0, block).start]);
        for place in 0..PLACES {
            let mut wanted = read_slot(&before, 0, block, place);
            if held(&before, 0, block) && wanted.lock != 0 {
                wanted = Slot { lock: 0, pending_present: false, pending_value: 0, ..wanted };
                freed += 1;
            } else {
                left += (wanted.lock != 0 || wanted.pending_present) as usize;
            }
            assert_eq!(read_slot(&image, 0, block, place), wanted);
        }
    }
    assert!(freed > 100 && left > 100, "{freed} {left}");
}

/// Cards 0 and 3 do not come back: F0 keeps two failed members.
#[test]
fn a_stop_that_stays_final() {
    let mut image = started(0xF0);
    ok(&mut image, Place { mask: 0xE0 });
    assert_eq!(perform(&mut image, &Fail { card: 0 }), Answer::Placed(0x60));
    stops(&mut image, &[1, 2, 3]);
    returns(&mut image, &[1, 2]);
    // Card 0 has the stamp of E0, and 60 does not name card 3, whose stamp is that of the newest.
    assert_eq!(image[stamp_at(0)], stamp(2, 0xE0));
    assert_eq!(image[stamp_at(3)], stamp(3, 0x60));
    refused(&image, 0, 19);
    refused(&image, 3, 19);
    assert!(is_stopped(&image));
    ok(&mut image, Start { mask: 0xF0 });
    assert!(!is_stopped(&image));
}

/// Each way to be stale, on a card that would be taken otherwise.
#[test]
fn stale_cards() {
    let image = all_failed();
    let current = stamp(2, 0xA0);
    assert_eq!(image[stamp_at(2)], current);
    let others = [stamp(1, 0xA0), stamp(3, 0xA0), stamp(2 + (1 << 16), 0xA0), stamp(2 + (1 << 8), 0xA0)];
    let masks = [stamp(2, 0xE0), stamp(2, 0xA1), stamp(2, 0), stamp(0, 0), [0xFF; 4], stamp(1, 0xE0)];
    for found in others.into_iter().chain(masks) {
        let mut image = image.clone();
        put_stamp(&mut image, 2, found);
        refused(&image, 2, 19);
    }
    // The newest placement does not name card 1, whatever its stamp.
    for found in [current, stamp(1, 0xE0), stamp(2, 0xE0), [0; 4]] {
        let mut image = image.clone();
        put_stamp(&mut image, 1, found);
        refused(&image, 1, 19);
    }
    let mut random = Random::new(2);
    for _ in 0..1_000 {
        let mut image = image.clone();
        random.fill(&mut image[table_at(2)]);
        if image[stamp_at(2)] != current {
            refused(&image, 2, 19);
        }
    }
}

/// A fit leaves a zero stamp, until the next placement is added.
#[test]
fn a_refitted_card_is_stale() {
    let mut image = started(0xF0);
    ok(&mut image, Fit { card: 4 });
    assert_eq!(image[stamp_at(4)], [0; 4]);
    assert_eq!(perform(&mut image, &Fail { card: 4 }), Answer::Unplaced);
    assert_eq!(perform(&mut image, &Fail { card: 0 }), Answer::Placed(0x70));
    stops(&mut image, &[1]);
    refused(&image, 4, 19);
    returns(&mut image, &[1]);
    // Settled, card 0 is fitted and placed: all working cards take the stamp.
    assert_eq!(perform(&mut image, &Settle), Answer::Retired(1));
    ok(&mut image, Fit { card: 0 });
    ok(&mut image, Place { mask: 0xF0 });
    assert_eq!(image[stamp_at(0)], stamp(3, 0xF0));
    assert_eq!(image[stamp_at(4)], [0; 4]);
    // A withdraw takes the stamp with the table.
    ok(&mut image, Fit { card: 4 });
    ok(&mut image, Place { mask: 0xF8 });
    assert_eq!(perform(&mut image, &Settle), Answer::Retired(2));
    ok(&mut image, Place { mask: 0xF0 });
    assert_eq!(perform(&mut image, &Settle), Answer::Retired(1));
    assert_eq!(image[stamp_at(4)], stamp(5, 0xF0));
    ok(&mut image, Withdraw { card: 4 });
    assert_eq!(image[stamp_at(4)], [0; 4]);
}

/// 3, then 8, then 19.
#[test]
fn order_of_refusals() {
    let stopped = all_failed();
    let mut stopped = stopped;
    returns(&mut stopped, &[2]);
    refused(&stopped[1..], 0, 1);
    refused(&stopped[..OLDER_LENGTH], 0, 1);
    refused(&[0; LENGTH], 9, 2);
    for card in [8, 9, 128, 255] {
        refused(&stopped, card, 3);
        refused(&started(0xE0), card, 3);
    }
    // Card 2 works, card 5 neither works nor is failed, card 1 is failed and stale.
    for (card, number) in [(2, 8), (5, 8), (1, 19)] {
        refused(&stopped, card, number);
    }
    // While the store runs: working, failed and stale, failed with the newest stamp.
    let mut running = started(0xF0);
    assert_eq!(perform(&mut running, &Fail { card: 3 }), Answer::Placed(0xE0));
    for card in 0..8 {
        refused(&running, card, 8);
    }
    put_stamp(&mut running, 3, stamp(2, 0xE0));
    refused(&running, 3, 8);
}

#[test]
fn fails_while_stopped() {
    let mut image = started(0xF0);
    ok(&mut image, Fit { card: 7 });
    assert_eq!(perform(&mut image, &Fail { card: 0 }), Answer::Placed(0x70));
    stops(&mut image, &[1]);
    for (card, number) in [(8, 3), (255, 3), (0, 8), (1, 8), (6, 8)] {
        let before = image.clone();
        assert_eq!(perform(&mut image, &Fail { card }), Answer::Refused(number), "{card}");
        assert!(image == before);
    }
    // A member, and a card in no placement: bytes 5 and 6 alone.
    for (card, bytes) in [(7, [0x30, 0xC1]), (2, [0x10, 0xE1]), (3, [0x00, 0xF1])] {
        let mut wanted = image.clone();
        wanted[5..7].copy_from_slice(&bytes);
        stops(&mut image, &[card]);
        assert!(image == wanted, "{card}");
    }
    // Other calls are refused as before, and a start begins anew.
    let calls = [Settle, State, Place { mask: 0xC0 }, Load { card: 0 }, Fit { card: 6 }, Withdraw { card: 6 }];
    for call in calls {
        assert_eq!(perform(&mut image, &call), Answer::Refused(4), "{call:?}");
    }
    returns(&mut image, &[1, 2, 3]);
    assert!(!is_stopped(&image));
    ok(&mut image, Start { mask: 0xC0 });
    assert!(image == started(0xC0));
}

/// A card that is marked while stopped and stays out can keep the store from running.
#[test]
fn the_store_runs_as_soon_as_it_can() {
    let mut image = started(0xFF);
    ok(&mut image, Place { mask: 0xF0 });
    assert_eq!(perform(&mut image, &Fail { card: 7 }), Answer::Unplaced);
    stops(&mut image, &[6, 0, 1]);
    returns(&mut image, &[1, 0]);
    // The newest is whole, and FF has two failed members that the newest does not name.
    let control = Control::read(&image).unwrap();
    assert!(control.stopped && control.working == 0xFC && control.failed == 0x03);
    refused(&image, 6, 19);
    refused(&image, 7, 19);
    // With one of them failed alone it runs.
    let mut image = started(0xFF);
    ok(&mut image, Place { mask: 0xF0 });
    assert_eq!(perform(&mut image, &Fail { card: 7 }), Answer::Unplaced);
    stops(&mut image, &[0, 1]);
    returns(&mut image, &[0]);
    assert!(is_stopped(&image));
    returns(&mut image, &[1]);
    assert!(!is_stopped(&image));
    assert_eq!(perform(&mut image, &State), Answer::Unprotected);
}

/// Four placements, one by a table, blocks half moved: all is as it was, and moves and settle go on.
#[test]
fn in_a_reorganisation() {
    let mut image = started(0xF0);
    ok(&mut image, Begin { transaction: 1, home: 0 });
    for block in 0..8 {
        ok(&mut image, Store { transaction: 1, record: 8 * block, value: 100 + block });
    }
    ok(&mut image, Commit { transaction: 1 });
    assert_eq!(place_by_table(&mut image, &[0, 63, 2, 0]), Answer::Ok);
    ok(&mut image, Place { mask: 0xF0 });
    assert_eq!(perform(&mut image, &Move { card: 1, block: 0 }), Answer::Copies(0));
    assert_eq!(perform(&mut image, &Fail { card: 3 }), Answer::Placed(0xE0));
    let before = image.clone();
    stops(&mut image, &[2, 0, 1]);
    returns(&mut image, &[1, 2]);
    assert!(is_stopped(&image));
    returns(&mut image, &[0]);
    assert!(image == before);
    ok(&mut image, Begin { transaction: 1, home: 0 });
    for block in 0..8 {
        assert_eq!(perform(&mut image, &Get { transaction: 1, record: 8 * block }), Answer::Value(100 + block));
    }
    for block in 0..8 {
        for card in 0..3 {
            perform(&mut image, &Move { card, block });
        }
    }
    assert_eq!(perform(&mut image, &Settle), Answer::Retired(3));
}

/// Where one placement is active before the supply fails, whatever cards are lost and in whatever order, the members of
/// the newest placement set the store running.
#[test]
fn one_placement_resumes() {
    let mut random = Random::new(3);
    let mut stopped = 0;
    for mask in 0..=0xFFu8 {
        let outside = members(!mask);
        for _ in 0..20 {
            let mut image = vec![0; LENGTH];
            if perform(&mut image, &Start { mask }) != Answer::Ok {
                continue;
            }
            for card in &outside {
                ok(&mut image, Fit { card: *card as u8 });
            }
            let mut cards: Vec<u8> = (0..8).collect();
            random.shuffle(&mut cards);
            for card in &cards[..1 + random.below(8)] {
                perform(&mut image, &Fail { card: *card });
            }
            stopped += is_stopped(&image) as usize;
            let control = Control::read(&image).unwrap();
            let mut missing = members(control.newest().mask & control.failed);
            random.shuffle(&mut missing);
            for card in missing {
                assert!(is_stopped(&image));
                returns(&mut image, &[card as u8]);
            }
            assert!(!is_stopped(&image), "{mask:02X} {cards:?}");
        }
    }
    assert!(stopped > 2_000, "{stopped}");
}

/// What changed since the card failed would be lost with its old bytes; the serial tells.
#[test]
fn a_card_that_failed_before_is_stale() {
    let mut image = with_records();
    ok(&mut image, Rollback { transaction: 2 });
    assert_eq!(perform(&mut image, &Fail { card: 1 }), Answer::Placed(0xA0));
    ok(&mut image, Begin { transaction: 2, home: 0 });
    ok(&mut image, Store { transaction: 2, record: 9, value: 7 });
    ok(&mut image, Commit { transaction: 2 });
    stops(&mut image, &[2]);
    refused(&image, 1, 19);
    returns(&mut image, &[2]);
    ok(&mut image, Begin { transaction: 2, home: 0 });
    assert_eq!(perform(&mut image, &Get { transaction: 2, record: 9 }), Answer::Value(7));
}
