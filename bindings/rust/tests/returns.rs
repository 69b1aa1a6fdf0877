//! Cards go back to a stopped store.

use nolpigat::*;

/// Cards 0 to 2 with record 9 committed; card 1 failed, and then 2 and 0, which stopped the store.
fn stopped_store() -> Vec<u8> {
    let mut image = vec![0; IMAGE_SIZE];
    assert_eq!(start(&mut image, Mask(0xE0)), Ok(()));
    assert_eq!(begin(&mut image, Tran(1), Card(0)), Ok(()));
    assert_eq!(store(&mut image, Tran(1), Rec(9), 4660), Ok(()));
    assert_eq!(commit(&mut image, Tran(1)), Ok(()));
    assert_eq!(begin(&mut image, Tran(2), Card(0)), Ok(()));
    assert_eq!(store(&mut image, Tran(2), Rec(9), 5), Ok(()));
    assert_eq!(fail(&mut image, Card(1)), Ok(Failed::Placed(Mask(0xA0))));
    for card in [2, 0] {
        assert_eq!(fail(&mut image, Card(card)), Ok(Failed::Stopped));
    }
    image
}

fn assert_refused(image: &[u8], card: u8, refusal: Refusal) {
    let mut after = image.to_vec();
    assert_eq!(return_card(&mut after, Card(card)), Err(refusal));
    assert!(after == image, "a refused call changed the image");
}

#[test]
fn in_either_order() {
    for order in [[0, 2], [2, 0]] {
        let mut image = stopped_store();
        for (card, still) in order.into_iter().zip([true, false]) {
            assert_eq!(return_card(&mut image, Card(card)), Ok(()));
            assert_eq!(stopped(&image), Ok(still));
        }
        assert_eq!(working(&image), Ok(Mask(0xA0)));
        assert_eq!(failed(&image), Ok(Mask(0x40)));
        assert_eq!(begin(&mut image, Tran(3), Card(0)), Ok(()));
        assert_eq!(get(&image, Tran(3), Rec(9)), Ok(Some(4660)));
        assert_eq!(get(&image, Tran(2), Rec(9)), Err(Refusal::NotOpen));
    }
}

#[test]
fn refusals_in_their_order() {
    let image = stopped_store();
    assert_refused(&image[1..], 8, Refusal::Length);
    assert_refused(&[0; IMAGE_SIZE], 8, Refusal::ControlForm);
    assert_refused(&image, 8, Refusal::Range);
    assert_refused(&image, 7, Refusal::Card);
    assert_refused(&image, 1, Refusal::Stale);
    let mut noisy = image.clone();
    noisy[32..32 + 2628].fill(0xFF);
    assert_refused(&noisy, 0, Refusal::Stale);
    let mut running = vec![0; IMAGE_SIZE];
    assert_eq!(start(&mut running, Mask(0xF0)), Ok(()));
    assert_eq!(fail(&mut running, Card(3)), Ok(Failed::Placed(Mask(0xE0))));
    for card in [0, 3, 7] {
        assert_refused(&running, card, Refusal::Card);
    }
}

/// Only a start gives new serials.
#[test]
fn no_serials_left() {
    let mut image = vec![0; IMAGE_SIZE];
    assert_eq!(start(&mut image, Mask(0xE0)), Ok(()));
    image[23..26].copy_from_slice(&16_777_000u32.to_be_bytes()[1..]);
    assert_eq!(place(&mut image, Mask(0xC0)), Err(Refusal::Serials));
    let line = Line { first: Block(0), last: Block(63), cards: [Card(0), Card(1)] };
    assert_eq!(place_by_table(&mut image, &[line]), Err(Refusal::Serials));
    assert_eq!(fail(&mut image, Card(0)), Ok(Failed::Placed(Mask(0x60))));
    assert_eq!(start(&mut image, Mask(0xE0)), Ok(()));
    assert_eq!(place(&mut image, Mask(0xC0)), Ok(()));
}
