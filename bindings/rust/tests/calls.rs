//! Each call with its answers, and the bytes that it leaves.

use nolpigat::*;

/// Cards 0, 1 and 2; nothing stored.
fn started() -> Vec<u8> {
    let mut image = vec![0; IMAGE_SIZE];
    assert_eq!(start(&mut image, Mask(0xE0)), Ok(()));
    image
}

/// Record 9 has the pending value 4660 of transaction 1. Its block 1 is on cards 1 and 2.
fn stored() -> Vec<u8> {
    let mut image = started();
    assert_eq!(begin(&mut image, Tran(1), Card(0)), Ok(()));
    assert_eq!(store(&mut image, Tran(1), Rec(9), 4660), Ok(()));
    image
}

/// Record 9 has the committed value 4660; none is open.
fn committed() -> Vec<u8> {
    let mut image = stored();
    assert_eq!(commit(&mut image, Tran(1)), Ok(()));
    image
}

/// Committed, then card 1 failed: masks E0 and A0 are active.
fn failed() -> Vec<u8> {
    let mut image = committed();
    assert_eq!(fail(&mut image, Card(1)), Ok(Failed::Placed(Mask(0xA0))));
    image
}

/// Where the slot of record 9 on a card begins.
fn slot_place(card: usize) -> usize {
    32 + card * 2628 + 41 + 1 + 5
}

/// The slot of record 9 on a card.
fn slot(image: &[u8], card: usize) -> &[u8] {
    &image[slot_place(card)..slot_place(card) + 5]
}

#[test]
fn start_zeroes_the_image() {
    let mut image = vec![0xFF; IMAGE_SIZE];
    assert_eq!(start(&mut image, Mask(0xE0)), Ok(()));
    assert_eq!(image[..8], [0x10, 0xE0, 0, 0, 0, 0xE0, 0, 0x80]);
    // Beside these bytes the serial, and its stamp with the mask at the end of each working card's table.
    let mut wanted = vec![0; IMAGE_SIZE];
    wanted[..8].copy_from_slice(&image[..8]);
    wanted[25] = 1;
    for card in 0..3 {
        wanted[32 + (card + 1) * 2628 - 4..][..4].copy_from_slice(&[0, 0, 1, 0xE0]);
    }
    assert!(image == wanted);
}

#[test]
fn begin_opens() {
    let mut image = started();
    assert_eq!(begin(&mut image, Tran(3), Card(2)), Ok(()));
    assert_eq!(image[8..12], [0, 0, 0xA0, 0]);
}

#[test]
fn get_reads() {
    let mut image = stored();
    assert_eq!(begin(&mut image, Tran(2), Card(0)), Ok(()));
    assert_eq!(get(&image, Tran(1), Rec(9)), Ok(Some(4660)));
    assert_eq!(get(&image, Tran(1), Rec(8)), Ok(None));
    assert_eq!(get(&image, Tran(2), Rec(9)), Err(Refusal::Locked));
}

#[test]
fn store_locks_both_sites() {
    let image = stored();
    for card in [1, 2] {
        assert_eq!(slot(&image, card), [0x00, 0x00, 0x0C, 0x48, 0xD0]);
    }
    assert_eq!(slot(&image, 0), [0; 5]);
}

#[test]
fn largest_value() {
    let mut image = stored();
    assert_eq!(store(&mut image, Tran(1), Rec(9), 65_534), Ok(()));
    assert_eq!(get(&image, Tran(1), Rec(9)), Ok(Some(65_534)));
    assert_eq!(store(&mut image, Tran(1), Rec(9), 65_535), Err(Refusal::Range));
    assert_eq!(get(&image, Tran(1), Rec(9)), Ok(Some(65_534)));
}

/// Record 9 has a 65,535 of an earlier store: with these slot bytes, and transaction 1 open.
fn left(bytes: [u8; 5]) -> Vec<u8> {
    let mut image = stored();
    for card in [1, 2] {
        let place = slot_place(card);
        image[place..place + 5].copy_from_slice(&bytes);
    }
    image
}

#[test]
fn committed_65535_is_used_as_before() {
    let mut image = left([0xFF, 0xFF, 0x80, 0x00, 0x00]);
    assert_eq!(get(&image, Tran(1), Rec(9)), Ok(Some(65_535)));
    assert_eq!(load(&image, Card(1)), Ok(1));
    assert_eq!(store(&mut image, Tran(1), Rec(9), 65_535), Err(Refusal::Range));
    assert_eq!(store(&mut image, Tran(1), Rec(9), 7), Ok(()));
    assert_eq!(rollback(&mut image, Tran(1)), Ok(()));
    assert_eq!(fail(&mut image, Card(1)), Ok(Failed::Placed(Mask(0xA0))));
    assert_eq!(move_block(&mut image, Card(2), Block(1)), Ok(1));
    assert_eq!(slot(&image, 0), [0xFF, 0xFF, 0x80, 0x00, 0x00]);
    assert_eq!(begin(&mut image, Tran(1), Card(0)), Ok(()));
    assert_eq!(delete(&mut image, Tran(1), Rec(9)), Ok(Deletion::Pending));
    assert_eq!(commit(&mut image, Tran(1)), Ok(()));
    assert_eq!(slot(&image, 0), [0; 5]);
}

#[test]
fn pending_65535_is_used_as_before() {
    let image = left([0x00, 0x00, 0x0F, 0xFF, 0xFC]);
    assert_eq!(get(&image, Tran(1), Rec(9)), Ok(Some(65_535)));
    let mut deleted = image.clone();
    assert_eq!(delete(&mut deleted, Tran(1), Rec(9)), Ok(Deletion::Pending));
    assert_eq!(get(&deleted, Tran(1), Rec(9)), Ok(None));
    let mut rolled_back = image.clone();
    assert_eq!(rollback(&mut rolled_back, Tran(1)), Ok(()));
    assert_eq!(slot(&rolled_back, 1), [0; 5]);
    let mut committed = image;
    assert_eq!(commit(&mut committed, Tran(1)), Ok(()));
    assert_eq!(slot(&committed, 1), [0xFF, 0xFF, 0x80, 0x00, 0x00]);
}

#[test]
fn delete_locks_what_is_present() {
    let mut image = committed();
    assert_eq!(begin(&mut image, Tran(2), Card(1)), Ok(()));
    assert_eq!(delete(&mut image, Tran(2), Rec(9)), Ok(Deletion::Pending));
    assert_eq!(delete(&mut image, Tran(2), Rec(9)), Ok(Deletion::Absent));
    assert_eq!(slot(&image, 1), [0x89, 0x1A, 0x10, 0x00, 0x00]);
}

#[test]
fn commit_takes_the_pending_state() {
    let image = committed();
    for card in [1, 2] {
        assert_eq!(slot(&image, card), [0x89, 0x1A, 0x00, 0x00, 0x00]);
    }
    assert_eq!(get(&image, Tran(1), Rec(9)), Err(Refusal::NotOpen));
}

#[test]
fn rollback_drops_the_pending_state() {
    let mut image = stored();
    assert_eq!(rollback(&mut image, Tran(1)), Ok(()));
    assert_eq!(slot(&image, 1), [0; 5]);
    assert_eq!(begin(&mut image, Tran(1), Card(0)), Ok(()));
    assert_eq!(get(&image, Tran(1), Rec(9)), Ok(None));
}

#[test]
fn fit_and_withdraw_a_card() {
    let mut image = started();
    assert_eq!(fit(&mut image, Card(3)), Ok(()));
    assert_eq!(image[5], 0xF0);
    assert_eq!(withdraw(&mut image, Card(3)), Ok(()));
    assert_eq!(image[5], 0xE0);
}

#[test]
fn place_adds_the_newest() {
    let mut image = started();
    assert_eq!(place(&mut image, Mask(0xC0)), Ok(()));
    assert_eq!(image[..8], [0x20, 0xE0, 0xC0, 0, 0, 0xE0, 0, 0xC0]);
}

/// An image that was started before placements were marked, with cards 0 to 7.
fn older() -> Vec<u8> {
    let mut image = vec![0; IMAGE_SIZE];
    image[..6].copy_from_slice(&[0x10, 0xFF, 0, 0, 0, 0xFF]);
    image[25] = 1;
    image
}

#[test]
fn sites_on_two_rails() {
    let mut image = vec![0; IMAGE_SIZE];
    assert_eq!(start(&mut image, Mask(0xFF)), Ok(()));
    // Record 9 is in block 1: cards 1 and 4, and by the old choice cards 1 and 2.
    for (mut image, cards) in [(image, [1, 4]), (older(), [1, 2])] {
        assert_eq!(begin(&mut image, Tran(1), Card(0)), Ok(()));
        assert_eq!(store(&mut image, Tran(1), Rec(9), 4660), Ok(()));
        for card in 0..8 {
            assert_eq!(slot(&image, card) != [0; 5], cards.contains(&card), "card {card}");
        }
    }
}

#[test]
fn place_takes_an_older_mask_to_two_rails() {
    let mut image = older();
    assert_eq!(begin(&mut image, Tran(1), Card(0)), Ok(()));
    assert_eq!(store(&mut image, Tran(1), Rec(9), 4660), Ok(()));
    assert_eq!(commit(&mut image, Tran(1)), Ok(()));
    assert_eq!(place(&mut image, Mask(0xFF)), Ok(()));
    assert_eq!(place(&mut image, Mask(0xFF)), Err(Refusal::Placement));
    assert_eq!(move_block(&mut image, Card(1), Block(1)), Ok(1));
    assert_eq!(move_block(&mut image, Card(2), Block(1)), Ok(0));
    assert_eq!(settle(&mut image), Ok(1));
    assert_eq!(image[..8], [0x10, 0xFF, 0, 0, 0, 0xFF, 0, 0x80]);
    assert_eq!(slot(&image, 4), [0x89, 0x1A, 0x00, 0x00, 0x00]);
}

#[test]
fn fail_places_or_not_or_stops() {
    let mut image = failed();
    assert_eq!(fit(&mut image, Card(3)), Ok(()));
    assert_eq!(fail(&mut image, Card(3)), Ok(Failed::Unplaced));
    assert_eq!(fail(&mut image, Card(2)), Ok(Failed::Stopped));
    assert_eq!(state(&image), Err(Refusal::Stopped));
}

#[test]
fn move_copies() {
    let mut image = failed();
    assert_eq!(move_block(&mut image, Card(2), Block(1)), Ok(1));
    assert_eq!(slot(&image, 0), slot(&image, 2));
}

#[test]
fn settle_retires() {
    let mut image = failed();
    assert_eq!(settle(&mut image), Err(Refusal::Unsettled));
    assert_eq!(move_block(&mut image, Card(2), Block(1)), Ok(1));
    assert_eq!(settle(&mut image), Ok(1));
}

/// Two active placements, nothing failed.
fn placed() -> Vec<u8> {
    let mut image = started();
    assert_eq!(fit(&mut image, Card(3)), Ok(()));
    assert_eq!(place(&mut image, Mask(0x70)), Ok(()));
    image
}

fn of_two_cards() -> Vec<u8> {
    let mut image = vec![0; IMAGE_SIZE];
    assert_eq!(start(&mut image, Mask(0xC0)), Ok(()));
    image
}

#[test]
fn state_tells_whether_a_failure_would_stop() {
    for (image, word) in [
        (started(), Protection::Protected),
        (placed(), Protection::Protected),
        (failed(), Protection::Unprotected),
        (of_two_cards(), Protection::Unprotected),
    ] {
        assert_eq!(state(&image), Ok(word));
        let stops = (0..8).any(|card| fail(&mut image.clone(), Card(card)) == Ok(Failed::Stopped));
        assert_eq!(stops, word == Protection::Unprotected);
    }
}

#[test]
fn load_counts_committed_records() {
    assert_eq!(load(&stored(), Card(1)), Ok(0));
    assert_eq!(load(&committed(), Card(1)), Ok(1));
    assert_eq!(load(&committed(), Card(0)), Ok(0));
}

#[test]
fn command_performs() {
    let mut image = stored();
    assert_eq!(command(&mut image, &[0x21, 0x00, 0x09, 0x00, 0x00]), Answer::Value(4660));
    assert_eq!(command(&mut image, &[0x51, 0x00, 0x00, 0x00, 0x00]), Answer::Ok);
    assert_eq!(image, committed());
}
