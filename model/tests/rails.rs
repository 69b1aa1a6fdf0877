//! Change request A.1: sites on two rails, the marks in byte 7, and images of the base.

use model::calls::{perform, perform_by, started, Answer, Call};
use model::control::{has, Control};
use model::edition::Edition;
use model::converter::converted;
use model::image::{block_at, held, BLOCKS, CARDS, LENGTH, OLDEST_LENGTH};
use model::sites::{members, rail, sites, Placement};

fn old(mask: u8) -> Placement {
    Placement::chained(mask)
}

fn by_rails(mask: u8) -> Placement {
    Placement::by_rails(mask)
}

/// An image after an accepted start by the base's call, and after places.
fn older(mask: u8, placed: &[u8]) -> Vec<u8> {
    let mut image = vec![0; OLDEST_LENGTH];
    assert_eq!(perform_by(Edition::Base, &mut image, &Call::Start { mask }), Answer::Ok);
    for mask in placed {
        assert_eq!(perform_by(Edition::Base, &mut image, &Call::Place { mask: *mask }), Answer::Ok);
    }
    image
}

fn ok(image: &mut [u8], call: Call) {
    assert_eq!(perform(image, &call), Answer::Ok, "{call:?}");
}

/// The first record of every block is stored and committed.
fn fill(image: &mut [u8]) {
    let home = members(Control::read(image).unwrap().newest().mask)[0] as u8;
    ok(image, Call::Begin { transaction: 1, home });
    for block in 0..BLOCKS as u16 {
        ok(image, Call::Store { transaction: 1, record: 8 * block, value: 100 + block });
    }
    ok(image, Call::Commit { transaction: 1 });
}

fn move_all(image: &mut [u8]) {
    for card in members(Control::read(image).unwrap().working) {
        for block in 0..BLOCKS {
            if held(image, card, block) {
                perform(image, &Call::Move { card: card as u8, block: block as u16 });
            }
        }
    }
}

/// Each block lies on exactly these sites.
fn assert_lies(image: &[u8], placement: Placement) {
    for block in 0..BLOCKS {
        let pair = sites(placement, block);
        for card in 0..CARDS {
            assert_eq!(held(image, card, block), pair.contains(&card), "{placement:?} block {block} card {card}");
        }
    }
}

#[test]
fn two_members_on_two_rails() {
    for mask in 0..=0xFFu8 {
        let cards = members(mask);
        if cards.len() < 2 {
            continue;
        }
        let both_rails = mask & 0xF0 != 0 && mask & 0x0F != 0;
        for block in 0..BLOCKS {
            let [first, second] = sites(by_rails(mask), block);
            assert!(has(mask, first) && has(mask, second) && first != second);
            assert_eq!(first, cards[block % cards.len()]);
            assert_eq!(rail(first) != rail(second), both_rails, "{mask:02X} {block}");
        }
    }
}

/// Going round card by card from the first site, the second is the first member met on the
/// other rail, and without one the first member met.
#[test]
fn second_site_is_the_first_met() {
    for mask in (0..=0xFFu8).filter(|mask| members(*mask).len() >= 2) {
        for block in 0..BLOCKS {
            let [first, second] = sites(by_rails(mask), block);
            let round = (1..CARDS).map(|step| (first + step) % CARDS);
            let met: Vec<usize> = round.filter(|card| has(mask, *card)).collect();
            let wanted = met.iter().find(|card| (**card < 4) != (first < 4)).unwrap_or(&met[0]);
            assert_eq!(second, *wanted, "{mask:02X} {block}");
            assert_eq!(sites(old(mask), block), [first, met[0]], "{mask:02X} {block}");
        }
    }
}

#[test]
fn sites_by_hand() {
    assert_eq!(sites(by_rails(0xFF), 0), [0, 4]);
    assert_eq!(sites(by_rails(0xFF), 3), [3, 4]);
    assert_eq!(sites(by_rails(0xFF), 5), [5, 0]);
    assert_eq!(sites(by_rails(0xE1), 1), [1, 7]);
    assert_eq!(sites(by_rails(0xE1), 3), [7, 0]);
    assert_eq!(sites(by_rails(0x0F), 3), [7, 4]);
    assert_eq!(sites(old(0xFF), 0), [0, 1]);
    assert_eq!(sites(old(0xE1), 1), [1, 2]);
}

#[test]
fn start_place_and_fail_write_marks() {
    let mut image = started(0xFF);
    assert_eq!(image[7], 0x80);
    ok(&mut image, Call::Place { mask: 0xFE });
    assert_eq!(image[7], 0xC0);
    ok(&mut image, Call::Place { mask: 0xFF });
    assert_eq!(image[7], 0xE0);
    assert_eq!(perform(&mut image, &Call::Fail { card: 7 }), Answer::Placed(0xFE));
    assert_eq!(image[..8], [0x40, 0xFF, 0xFE, 0xFF, 0xFE, 0xFE, 0x01, 0xF0]);
    assert_eq!(perform(&mut image, &Call::Fail { card: 0 }), Answer::Stopped);
    assert_eq!(image[7], 0xF0);
}

#[test]
fn base_writes_no_marks() {
    let mut image = older(0xFF, &[]);
    for call in [Call::Place { mask: 0xFE }, Call::Place { mask: 0xFF }] {
        assert_eq!(perform_by(Edition::Base, &mut image, &call), Answer::Ok);
        assert_eq!(perform_by(Edition::Base, &mut image.clone(), &call), Answer::Refused(9));
    }
    assert_eq!(perform_by(Edition::Base, &mut image, &Call::Fail { card: 7 }), Answer::Placed(0xFE));
    assert_eq!(image[..8], [0x40, 0xFF, 0xFE, 0xFF, 0xFE, 0xFE, 0x01, 0]);
    // It knows no marks either, and the same image is whole today.
    let mut marked = vec![0; OLDEST_LENGTH];
    assert_eq!(perform_by(Edition::Rails, &mut marked, &Call::Start { mask: 0xFF }), Answer::Ok);
    assert_eq!(perform_by(Edition::Base, &mut marked, &Call::State), Answer::Refused(2));
    assert_eq!(perform(&mut converted(&image), &Call::State), Answer::Unprotected);
}

#[test]
fn place_of_the_newest_mask() {
    let mut image = converted(&older(0xFF, &[]));
    ok(&mut image, Call::Place { mask: 0xFF });
    assert_eq!(image[..8], [0x20, 0xFF, 0xFF, 0, 0, 0xFF, 0, 0x40]);
    assert_eq!(perform(&mut image, &Call::Place { mask: 0xFF }), Answer::Refused(9));
    // 9 comes before 10, and 10 stays where 9 does not apply.
    let mut image = converted(&older(0xFF, &[0xFE, 0xFF]));
    assert_eq!(perform(&mut image, &Call::Place { mask: 0xFF }), Answer::Refused(10));
    image[7] = 0x20;
    assert_eq!(perform(&mut image, &Call::Place { mask: 0xFF }), Answer::Refused(9));
}

#[test]
fn an_older_store_moves_to_two_rails() {
    let mut image = converted(&older(0xFF, &[]));
    fill(&mut image);
    assert_eq!(image[7], 0);
    assert_lies(&image, old(0xFF));
    // What lies by the old choice is settled while that is the newest.
    assert_eq!(perform(&mut image, &Call::Settle), Answer::Retired(0));
    assert_eq!(image[7], 0);
    ok(&mut image, Call::Place { mask: 0xFF });
    assert_eq!(perform(&mut image, &Call::Settle), Answer::Refused(13));
    move_all(&mut image);
    assert_lies(&image, by_rails(0xFF));
    assert_eq!(perform(&mut image, &Call::Settle), Answer::Retired(1));
    assert_eq!(image[..8], [0x10, 0xFF, 0, 0, 0, 0xFF, 0, 0x80]);
    ok(&mut image, Call::Begin { transaction: 1, home: 0 });
    for block in 0..BLOCKS as u16 {
        assert_eq!(perform(&mut image, &Call::Get { transaction: 1, record: 8 * block }), Answer::Value(100 + block));
    }
}

#[test]
fn settle_moves_the_mark_of_the_newest() {
    // The newest of two, three and four, marked or not, over any marks of the older ones.
    for number in 2..=4u8 {
        for marks in 0..1u8 << number {
            let mut image = vec![0; LENGTH];
            image[0] = number << 4;
            image[1..5].copy_from_slice(&[0xFE, 0xEE, 0xFF, 0xFE]);
            image[1 + number as usize..5].fill(0);
            image[5] = 0xFE | if number == 3 { 1 } else { 0 };
            image[6] = !image[5];
            image[7] = marks << (8 - number);
            image[25] = number;
            assert_eq!(perform(&mut image, &Call::Settle), Answer::Retired(number - 1));
            assert_eq!(image[7], if marks & 1 == 1 { 0x80 } else { 0 }, "{number} {marks:02X}");
        }
    }
}

#[test]
fn fail_adds_a_marked_placement_after_old_ones() {
    assert_eq!(perform(&mut converted(&older(0xFF, &[])), &Call::Fail { card: 3 }), Answer::Placed(0xEF));
    let mut image = converted(&older(0xFF, &[0xFE, 0xFF]));
    assert_eq!(perform(&mut image, &Call::Fail { card: 3 }), Answer::Placed(0xEF));
    assert_eq!(image[..8], [0x40, 0xFF, 0xFE, 0xFF, 0xEF, 0xEF, 0x10, 0x10]);
    // A card outside the newest adds none, and a stop keeps the marks.
    let mut image = converted(&older(0xFE, &[0xE0]));
    assert_eq!(perform(&mut image, &Call::Fail { card: 6 }), Answer::Unplaced);
    assert_eq!(image[7], 0);
    assert_eq!(perform(&mut image, &Call::Fail { card: 5 }), Answer::Stopped);
    assert_eq!(image[7], 0);
}

#[test]
fn both_kinds_are_searched_and_stored() {
    let mut image = converted(&older(0xCC, &[]));
    fill(&mut image);
    ok(&mut image, Call::Place { mask: 0xCC });
    // Block 0 is on 0 and 1 by the old choice, and on 0 and 4 by rails.
    assert_eq!(perform(&mut image, &Call::Move { card: 0, block: 0 }), Answer::Copies(1));
    assert!(held(&image, 1, 0) && held(&image, 4, 0));
    ok(&mut image, Call::Begin { transaction: 2, home: 0 });
    ok(&mut image, Call::Store { transaction: 2, record: 0, value: 7 });
    ok(&mut image, Call::Commit { transaction: 2 });
    let slots: Vec<&[u8]> = [0, 1, 4].map(|card| &image[block_at(card, 0)]).to_vec();
    assert!(slots.iter().all(|block| block == &slots[0]));
    assert_eq!(perform(&mut image.clone(), &Call::Fail { card: 0 }), Answer::Placed(0x4C));
}
