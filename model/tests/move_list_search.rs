//! Change request A.3: the move list against a search through the model's own moves and settles.

use model::at_failing::AtFailing;
use model::commands::read_command;
use model::control::{form_of, put_form, Control};
use model::image::*;
use model::images::disturb;
use model::lists::{List, Lists, Step};
use model::move_list::{fewest_moves, move_list, running, ListAnswer, Move, MOST_MOVES};
use model::move_list_images::reorganising_image;
use model::move_list_situations::{move_list_situations, MOVE_LISTS, MOVE_LISTS_REACHED};
use model::random::Random;
use model::returns::return_card;
use model::table::place_by_table;
use model::{perform, Answer, Call};
use std::collections::{BTreeSet, HashSet, VecDeque};

/// The moves; None for 'none'.
fn listed(image: &[u8]) -> Option<Vec<Move>> {
    let mut list = vec![Move::default(); MOST_MOVES];
    match move_list(image, &mut list) {
        ListAnswer::Listed(number) => Some(list[..number].to_vec()),
        ListAnswer::None => None,
        answer => panic!("{answer}"),
    }
}

/// The image with this block alone, so that a settle speaks of no other. Blocks do not meet in a move.
fn alone(image: &[u8], block: usize) -> Vec<u8> {
    let mut image = image.to_vec();
    for card in 0..CARDS {
        for other in (0..BLOCKS).filter(|other| *other != block) {
            image[block_at(card, other).start] &= 0x7F;
        }
    }
    image
}

fn copies(image: &[u8], block: usize) -> Vec<u8> {
    (0..CARDS).flat_map(|card| image[block_at(card, block)].iter().copied()).collect()
}

fn put(image: &mut [u8], block: usize, copies: &[u8]) {
    for (card, bytes) in copies.chunks(BLOCK_BYTES).enumerate() {
        image[block_at(card, block)].copy_from_slice(bytes);
    }
}

/// Whether a settle would succeed.
fn settles(image: &mut [u8]) -> bool {
    let form = form_of(image);
    let answer = perform(image, &Call::Settle);
    put_form(image, &form);
    matches!(answer, Answer::Retired(_))
}

/// How many moves of an image's only block it takes until a settle succeeds, by breadth over all sequences of moves.
/// None if no sequence lets it.
fn fewest(image: &[u8], block: usize) -> Option<usize> {
    let mut image = image.to_vec();
    let first = copies(&image, block);
    let mut known = HashSet::from([first.clone()]);
    let mut reached = VecDeque::from([(first, 0)]);
    while let Some((lying, moves)) = reached.pop_front() {
        put(&mut image, block, &lying);
        if settles(&mut image) {
            return Some(moves);
        }
        for card in 0..CARDS as u8 {
            put(&mut image, block, &lying);
            perform(&mut image, &Call::Move { card, block: block as u16 });
            let next = copies(&image, block);
            if known.insert(next.clone()) {
                reached.push_back((next, moves + 1));
            }
        }
    }
    None
}

fn make(image: &mut [u8], moves: &[Move]) {
    for from in moves {
        let answer = perform(image, &Call::Move { card: from.card, block: from.block.into() });
        assert!(matches!(answer, Answer::Copies(_)), "{from:?} {answer}");
    }
}

/// The list of the whole is that of its blocks one behind the other, or 'none' if one of them has none; after it, and
/// not after a part of it, settle succeeds.
fn check_whole(image: &[u8]) {
    let whole = listed(image);
    let parts: Option<Vec<_>> = (0..BLOCKS).map(|block| listed(&alone(image, block))).collect();
    assert_eq!(whole, parts.map(|parts| parts.concat()));
    let Some(moves) = whole else { return };
    let mut after = image.to_vec();
    for from in &moves {
        assert!(!settles(&mut after));
        make(&mut after, &[*from]);
    }
    let active = running(image).expect("running").placements.len();
    assert_eq!(perform(&mut after, &Call::Settle), Answer::Retired(active as u8 - 1));
}

/// The list of one block has as many moves as the search finds, and is 'none' where that finds no sequence.
fn check_block(image: &[u8], block: usize) {
    let image = alone(image, block);
    let number = listed(&image).map(|moves| moves.len());
    assert_eq!(number, fewest(&image, block), "block {block}");
}

/// Every block that must still move and is locked where it would move from: no move of it is accepted.
fn check_locked_blocks(image: &[u8], moves: &[Move]) {
    for from in moves.iter().filter(|from| locked(image, from.card.into(), from.block.into())) {
        for card in 0..CARDS as u8 {
            let answer = perform(&mut image.to_vec(), &Call::Move { card, block: from.block.into() });
            assert!(matches!(answer, Answer::Refused(_)), "{from:?} {card} {answer}");
        }
    }
}

#[derive(Default)]
struct Seen(BTreeSet<String>);

impl Seen {
    fn add(&mut self, image: &[u8], control: &Control, moves: &[Move]) {
        let answer = move_list(image, &mut vec![Move::default(); MOST_MOVES]);
        self.0.extend(move_list_situations(image, control, moves, &answer));
    }

    fn assert_all(&self, names: &[&str]) {
        let missing: Vec<_> = names.iter().filter(|name| !self.0.contains(**name)).collect();
        assert!(missing.is_empty(), "{missing:?}");
    }
}

/// With two copies of a block, 'none' is final on images of any contents: a stray that is locked keeps its copy, and a
/// site that must send is the only card with one.
#[test]
fn random_reorganisations() {
    let mut random = Random::new(1);
    let mut seen = Seen::default();
    for round in 0..500 {
        let image = reorganising_image(&mut random, 1 + round % 4);
        let control = running(&image).expect("running");
        seen.add(&image, &control, &fewest_moves(&image, &control));
        check_whole(&image);
        for _ in 0..8 {
            check_block(&image, random.below(BLOCKS));
        }
    }
    seen.assert_all(MOVE_LISTS);
}

/// The step on the image, and in the plain list.
fn take(list: &mut List, image: &mut [u8], at_failing: &mut AtFailing, step: &Step) {
    match step {
        Step::Command(bytes) => {
            if let Some(call) = read_command(bytes) {
                perform(image, &call);
                list.expect(&call);
            }
        }
        Step::Table(lines) => {
            place_by_table(image, lines);
            list.expect_table(lines);
        }
        Step::Return { card, kept } => {
            let kept = at_failing.prepare_return(image, *card, *kept);
            return_card(image, *card);
            list.expect_return(*card, kept);
        }
    }
    at_failing.note(image);
}

fn check_reached(list: &mut List, random: &mut Random, seen: &mut Seen) {
    let mut image = list.image().to_vec();
    let mut at_failing = AtFailing::new(&image);
    for at in 0..list.calls {
        let step = list.next_step();
        if Control::read(&image).is_some() {
            disturb(random, &mut image);
        }
        take(list, &mut image, &mut at_failing, &step);
        let Some(control) = running(&image).ok().filter(|_| list.plain.is_some() && at % 40 == 0) else { continue };
        let moves = fewest_moves(&image, &control);
        seen.add(&image, &control, &moves);
        check_whole(&image);
        check_locked_blocks(&image, &moves);
        if let Some(from) = random.any_of(&moves) {
            check_block(&image, from.block.into());
        }
    }
}

/// Lists of calls after a start, with any bytes in the tables of failed cards.
#[test]
fn images_that_calls_reach() {
    let mut random = Random::new(2);
    let mut seen = Seen::default();
    for mut list in Lists::new(3).take(180) {
        check_reached(&mut list, &mut random, &mut seen);
    }
    seen.assert_all(MOVE_LISTS_REACHED);
}
