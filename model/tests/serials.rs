//! Change request A.7: the serial, its bounds, and the stamps that placements leave.

use model::calls::{perform, started};
use model::control::{stamp, Control, SERIAL};
use model::image::*;
use model::images::{random_call, random_image};
use model::random::Random;
use model::table::place_by_table;
use model::Answer;
use model::Call::*;

const TABLE: [u8; 4] = [0, 63, 0, 1];

/// The image with this serial in its control part.
fn at_serial(image: &[u8], serial: u32) -> Vec<u8> {
    let mut image = image.to_vec();
    image[SERIAL].copy_from_slice(&stamp(serial, 0)[..3]);
    image
}

fn serial(image: &[u8]) -> u32 {
    Control::read(image).expect("the form is whole").serial
}

/// The stamps of all cards.
fn stamps(image: &[u8]) -> Vec<[u8; 4]> {
    (0..CARDS).map(|card| image[stamp_at(card)].try_into().unwrap()).collect()
}

/// One at a start, and one more for each placement; a settle leaves it.
#[test]
fn placements_are_counted() {
    let mut image = started(0xF8);
    assert_eq!(image[23..32], [0, 0, 1, 0, 0, 0, 0, 0, 0]);
    assert_eq!(perform(&mut image, &Place { mask: 0xF0 }), Answer::Ok);
    assert_eq!(serial(&image), 2);
    assert_eq!(place_by_table(&mut image, &TABLE), Answer::Ok);
    assert_eq!(serial(&image), 3);
    assert_eq!(perform(&mut image, &Settle), Answer::Retired(2));
    assert_eq!(perform(&mut image, &Settle), Answer::Retired(0));
    assert_eq!(serial(&image), 3);
    assert_eq!(perform(&mut image, &Place { mask: 0xF8 }), Answer::Ok);
    assert_eq!(perform(&mut image, &Settle), Answer::Retired(1));
    // A fail in the newest adds a placement; one outside adds none.
    assert_eq!(perform(&mut image, &Fit { card: 7 }), Answer::Ok);
    assert_eq!(perform(&mut image, &Fail { card: 7 }), Answer::Unplaced);
    assert_eq!(serial(&image), 4);
    assert_eq!(perform(&mut image, &Fail { card: 0 }), Answer::Placed(0x78));
    assert_eq!(serial(&image), 5);
    assert_eq!(perform(&mut image, &Fail { card: 1 }), Answer::Stopped);
    assert_eq!(serial(&image), 5);
    assert_eq!(perform(&mut image, &Start { mask: 0xC0 }), Answer::Ok);
    assert_eq!(serial(&image), 1);
}

/// All cards that work after the call take the stamp, members or not; others keep theirs.
#[test]
fn stamps_of_placements() {
    let first = stamp(1, 0xE0);
    let mut image = started(0xE0);
    let none = [0; 4];
    assert_eq!(stamps(&image), [first, first, first, none, none, none, none, none]);
    assert_eq!(perform(&mut image, &Fit { card: 6 }), Answer::Ok);
    assert_eq!(stamps(&image)[6], none);
    assert_eq!(perform(&mut image, &Place { mask: 0xC2 }), Answer::Ok);
    let second = stamp(2, 0xC2);
    assert_eq!(stamps(&image), [second, second, second, none, none, none, second, none]);
    // The card that fails keeps its own.
    assert_eq!(perform(&mut image, &Fail { card: 1 }), Answer::Placed(0x82));
    let third = stamp(3, 0x82);
    assert_eq!(stamps(&image), [third, second, third, none, none, none, third, none]);
    let before = stamps(&image);
    // A settle and a stop write none.
    assert_eq!(perform(&mut image, &Settle), Answer::Retired(2));
    assert_eq!(perform(&mut image, &Fail { card: 0 }), Answer::Stopped);
    assert_eq!(stamps(&image), before);
}

#[test]
fn no_place_from_16777000_on() {
    let one = started(0xF0);
    for serial in [16_776_999, 16_777_000, 16_777_004] {
        let answer = if serial == 16_776_999 { Answer::Ok } else { Answer::Refused(20) };
        let before = at_serial(&one, serial);
        let mut image = before.clone();
        assert_eq!(perform(&mut image, &Place { mask: 0xE0 }), answer);
        assert_eq!(image == before, answer != Answer::Ok);
        let mut image = before.clone();
        assert_eq!(place_by_table(&mut image, &TABLE), answer);
        assert_eq!(image == before, answer != Answer::Ok);
        // 9 and 17 come first.
        assert_eq!(perform(&mut before.clone(), &Place { mask: 0xF0 }), Answer::Refused(9));
        assert_eq!(place_by_table(&mut before.clone(), &[0, 62, 0, 1]), Answer::Refused(17));
    }
    // 10 comes before 20.
    let mut three = one;
    for mask in [0xE0, 0xF0] {
        assert_eq!(perform(&mut three, &Place { mask }), Answer::Ok);
    }
    let mut three = at_serial(&three, 16_777_000);
    assert_eq!(perform(&mut three, &Place { mask: 0xE0 }), Answer::Refused(10));
    assert_eq!(place_by_table(&mut three, &TABLE), Answer::Refused(10));
    // A settle retires placements; their serials are spent.
    assert_eq!(perform(&mut three, &Settle), Answer::Retired(2));
    assert_eq!(perform(&mut three, &Place { mask: 0xE0 }), Answer::Refused(20));
}

/// The last place, then fails and settles until two cards are left: every serial fits.
#[test]
fn fails_at_the_bound_keep_the_form() {
    let mut image = at_serial(&started(0xFE), 16_776_999);
    assert_eq!(perform(&mut image, &Fit { card: 7 }), Answer::Ok);
    assert_eq!(perform(&mut image, &Place { mask: 0xFF }), Answer::Ok);
    assert_eq!(perform(&mut image, &Settle), Answer::Retired(1));
    assert_eq!(serial(&image), 16_777_000);
    for card in 0..6 {
        assert!(matches!(perform(&mut image, &Fail { card }), Answer::Placed(_)));
        assert_eq!(perform(&mut image, &Settle), Answer::Retired(1));
        assert_eq!(serial(&image), 16_777_001 + u32::from(card));
    }
    assert_eq!(perform(&mut image, &Fail { card: 6 }), Answer::Stopped);
    assert_eq!(perform(&mut image, &State), Answer::Refused(4));
}

/// On images of any contents, also near the bounds, no accepted call breaks the form.
#[test]
fn calls_near_the_bounds() {
    let mut random = Random::new(5);
    let (mut near, mut placed) = (0, 0);
    while near < 20_000 {
        let image = random_image(&mut random);
        let Some(control) = Control::read(&image).filter(|control| control.serial >= 16_776_990) else { continue };
        for _ in 0..20 {
            let mut after = image.clone();
            let call = random_call(&mut random);
            let answer = perform(&mut after, &call);
            let control_after = Control::read(&after).expect("the form is whole");
            let added = matches!((call, answer), (Place { .. }, Answer::Ok) | (Fail { .. }, Answer::Placed(_)));
            if !matches!(call, Start { .. }) {
                assert_eq!(control_after.serial, control.serial + u32::from(added), "{call:?} {answer}");
            }
            near += 1;
            placed += added as usize;
        }
    }
    assert!(placed > 100, "{placed}");
}
