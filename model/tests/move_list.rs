//! Change request A.3: what the move list answers, and what it leaves of the lent list.

mod reached;

use model::control::put_form;
use model::converter::converted;
use model::edition::Edition;
use model::image::*;
use model::images::whole_control;
use model::move_list::{move_list, ListAnswer, Move, MOST_MOVES};
use model::move_list_images::reorganising_image;
use model::move_list_situations::{room_situations, ROOMS};
use model::random::Random;
use model::Call::{self, *};
use reached::{after, make};
use std::collections::BTreeSet;

/// No move has these numbers.
const LENT: Move = Move { card: 0xEE, block: 0xDD };

/// The moves of an image; None for 'none'.
fn listed(image: &[u8]) -> Option<Vec<(u8, u8)>> {
    let mut list = [LENT; MOST_MOVES];
    match move_list(image, &mut list) {
        ListAnswer::Listed(number) => Some(list[..number].iter().map(|from| (from.card, from.block)).collect()),
        ListAnswer::None => None,
        answer => panic!("{answer}"),
    }
}

/// The first record of each block is stored by transaction 1 and committed.
fn stored(mask: u8, home: u8, blocks: &[u16]) -> Vec<Call> {
    let stores = blocks.iter().map(|block| Store { transaction: 1, record: 8 * block, value: 9 });
    let mut calls = vec![Start { mask }, Begin { transaction: 1, home }];
    calls.extend(stores);
    calls.push(Commit { transaction: 1 });
    calls
}

/// Transaction 2 stores in this block and stays open.
fn pending(home: u8, block: u16) -> [Call; 2] {
    [Begin { transaction: 2, home }, Store { transaction: 2, record: 8 * block + 3, value: 7 }]
}

fn assert_listed(calls: &[Call], more: &[Call], moves: Option<&[(u8, u8)]>) {
    let image = after(Edition::Today, &[calls, more].concat());
    assert_eq!(listed(&image).as_deref(), moves, "{more:?}");
}

/// Cards 0 to 3; block b lies on cards b and b + 1.
#[test]
fn lists_of_load_moves() {
    let base = stored(0xF0, 0, &[0, 1, 2]);
    assert_listed(&base, &[], Some(&[]));
    // Block 0 goes from 0 and 1 to 1 and 2, block 1 from 1 and 2 to 2 and 3, block 2 from 2 and 3 to 1 and 3.
    assert_listed(&base, &[Place { mask: 0x70 }], Some(&[(0, 0), (1, 1), (2, 2)]));
    // Block 0 goes from 0 and 1 to 2 and 3, block 1 from 1 and 2 to 2 and 3; block 2 stays.
    let away = Place { mask: 0x30 };
    assert_listed(&base, &[away], Some(&[(0, 0), (1, 0), (1, 1)]));
    assert_listed(&base, &[away, Call::Move { card: 0, block: 0 }], Some(&[(1, 0), (1, 1)]));
    assert_listed(&base, &[away, Call::Move { card: 1, block: 0 }], Some(&[(0, 0), (1, 1)]));
    // A move from a site that holds the block settles nothing here.
    assert_listed(&base, &[away, Call::Move { card: 2, block: 1 }], Some(&[(0, 0), (1, 0), (1, 1)]));
    // Where it goes back to the first cards, block 0 is in place again, but for the copies made.
    let back = [away, Call::Move { card: 0, block: 0 }, Place { mask: 0xF0 }];
    assert_listed(&base, &back, Some(&[(2, 0), (3, 0)]));
}

/// Cards 0, 1 and 2; block 1 lies on cards 1 and 2.
#[test]
fn a_site_sends_after_a_failure() {
    let base = stored(0xE0, 0, &[1]);
    assert_listed(&base, &[Fail { card: 0 }], Some(&[]));
    assert_listed(&base, &[Fail { card: 1 }], Some(&[(2, 1)]));
    assert_listed(&base, &[Fail { card: 2 }], Some(&[(1, 1)]));
    assert_listed(&base, &[Fail { card: 2 }, Call::Move { card: 1, block: 1 }], Some(&[]));
}

/// Eight cards; block 1 lies on cards 1 and 4, by the old choice on 1 and 2.
#[test]
fn lists_by_rails() {
    let base = stored(0xFF, 0, &[1]);
    assert_listed(&base, &[Place { mask: 0x7F }], Some(&[(1, 1)]));
    assert_listed(&base, &[Fail { card: 4 }], Some(&[(1, 1)]));
    let mut older = converted(&after(Edition::Base, &base));
    assert_eq!(listed(&older), Some(vec![]));
    make(Edition::Today, &mut older, &[Place { mask: 0xFF }]);
    assert_eq!(listed(&older), Some(vec![(2, 1)]));
}

/// Cards 0 to 3, as above.
#[test]
fn locks_that_matter_and_others() {
    let base = stored(0xF0, 0, &[0, 2]);
    let away = Place { mask: 0x30 };
    let with = |home: u8, block: u16, more: &[Call]| [&pending(home, block)[..], more].concat();
    assert_listed(&base, &with(2, 0, &[]), Some(&[]));
    assert_listed(&base, &with(2, 0, &[away]), None);
    assert_listed(&base, &with(2, 0, &[away, Rollback { transaction: 2 }]), Some(&[(0, 0), (1, 0)]));
    // Block 2 stays where it is, and a block that is stored after the place lies at its newest sites.
    assert_listed(&base, &with(2, 2, &[away]), Some(&[(0, 0), (1, 0)]));
    assert_listed(&base, &[&[away][..], &pending(2, 1)].concat(), Some(&[(0, 0), (1, 0)]));
    // A site that must send: block 0 on card 1 alone.
    assert_listed(&base, &with(1, 0, &[Fail { card: 0 }]), None);
    // The failure of its home ends the transaction.
    assert_listed(&base, &with(0, 0, &[Fail { card: 0 }]), Some(&[(1, 0), (2, 2)]));
}

/// The answer to a list of this room, which changes only where moves are listed, and only in their entries.
fn answer_in(random: &mut Random, image: &[u8], room: usize, moves: Option<&[Move]>) -> ListAnswer {
    let any = |random: &mut Random| Move { card: random.byte(), block: random.byte() };
    let lent: Vec<Move> = (0..room).map(|_| any(random)).collect();
    let mut list = lent.clone();
    let answer = move_list(image, &mut list);
    let written = if let ListAnswer::Listed(number) = answer { number } else { 0 };
    assert!(list[written..] == lent[written..], "{answer}");
    if written > 0 {
        assert_eq!(moves, Some(&list[..written]));
    }
    answer
}

#[test]
fn rooms_of_every_length() {
    let mut random = Random::new(1);
    let mut met = BTreeSet::new();
    for round in 0..1_000 {
        let image = reorganising_image(&mut random, 1 + round % 4);
        let mut most = [LENT; MOST_MOVES];
        let whole = move_list(&image, &mut most);
        let needed = most.iter().position(|from| *from == LENT).expect("fewer moves than entries");
        assert!(matches!(whole, ListAnswer::Listed(_) | ListAnswer::None), "{whole}");
        for room in [0, 1, needed.saturating_sub(1), needed, needed + 1, needed + 7, MOST_MOVES] {
            let short = whole == ListAnswer::Listed(needed) && room < needed;
            let answer = answer_in(&mut random, &image, room, Some(&most[..needed]));
            assert_eq!(answer, if short { ListAnswer::Refused(16) } else { whole }, "room {room}");
            met.extend(room_situations(needed, room, &answer));
        }
    }
    for name in ["listed in exact room", "listed with room left", "refused 16 by one entry", "none in no room"] {
        assert!(met.contains(name) && ROOMS.contains(&name), "{name}: {met:?}");
    }
}

/// Each refusal is found where the later ones apply too: blocks must move, and the list has no room.
#[test]
fn refusals_in_their_order() {
    let mut random = Random::new(2);
    for round in 0..200 {
        let mut image = reorganising_image(&mut random, 1 + round % 4);
        let mut refused = |image: &[u8], number: u8| {
            for room in [0, 1, MOST_MOVES] {
                assert_eq!(answer_in(&mut random, image, room, None), ListAnswer::Refused(number));
            }
        };
        image[0] |= 0x80;
        image[8..23].fill(0);
        refused(&image, 4);
        image[31] = 1;
        refused(&image, 2);
        image[0] &= 0x7F;
        refused(&image, 2);
        refused(&image[1..], 1);
        refused(&[], 1);
        image.push(0);
        refused(&image, 1);
    }
    let mut stopped = vec![0; LENGTH];
    put_form(&mut stopped, &whole_control(&mut random, 2, true));
    assert_eq!(answer_in(&mut random, &stopped, 0, None), ListAnswer::Refused(4));
    assert_eq!(answer_in(&mut random, &vec![0; LENGTH], 0, None), ListAnswer::Refused(2));
}
