//! Random images in the middle of a reorganisation, also such as no list of calls reaches, for the move list.

use crate::control::{bit, count, has, put_form, Control};
use crate::image::*;
use crate::images::whole_control;
use crate::move_list::site_mask;
use crate::random::Random;
use crate::sites::sites;

/// Which copies have a locked slot.
#[derive(Clone, Copy)]
enum Locks {
    Nowhere,
    /// Only such as need not move.
    InPlace,
    /// All copies of a few blocks, as a store leaves them.
    WholeBlocks,
    /// Any few copies.
    Anywhere,
}

/// A running store with this many active placements, and any bytes where the call does not look.
pub fn reorganising_image(random: &mut Random, number: usize) -> Vec<u8> {
    let mut image = vec![0; LENGTH];
    put_form(&mut image, &whole_control(random, number, false));
    random.fill(&mut image[TABLES]);
    let control = Control::read(&image).expect("the form is whole");
    let settled = if random.chance(200) { 1000 } else { 300 };
    let nowhere = if random.chance(20) { 1000 } else { random.one_of(&[0, 100, 900]) };
    let locks = random.one_of(&[Locks::Nowhere, Locks::InPlace, Locks::WholeBlocks, Locks::Anywhere]);
    for block in 0..BLOCKS {
        let wanted = site_mask(control.newest(), block);
        let cards = if random.chance(settled) { wanted } else { random_cards(random, &control, block) };
        let cards = if random.chance(nowhere) { 0 } else { cards & control.working };
        let locked = locked_copies(random, locks, cards, wanted);
        lay(random, &mut image, control.working, block, cards, locked);
    }
    image
}

/// Where a block can lie that has not moved, or has moved in part; now and then any cards.
fn random_cards(random: &mut Random, control: &Control, block: usize) -> u8 {
    let older = site_mask(random.one_of(&control.placements), block);
    match random.below(6) {
        0 | 1 => older,
        2 => older | site_mask(random.one_of(&control.placements), block),
        3 => bit(random.one_of(&sites(control.newest(), block))),
        4 => bit(random.below(CARDS)),
        _ => random.byte(),
    }
}

/// The cards whose copies get a locked slot.
fn locked_copies(random: &mut Random, locks: Locks, cards: u8, wanted: u8) -> u8 {
    match locks {
        Locks::Nowhere => 0,
        // A site sends only where no other card holds the block.
        Locks::InPlace if count(cards) > 1 => cards & wanted & random.byte(),
        Locks::InPlace => 0,
        Locks::WholeBlocks => if random.chance(30) { cards } else { 0 },
        Locks::Anywhere => cards & random.byte() & random.byte() & random.byte() & random.byte() & random.byte(),
    }
}

/// These working cards hold the block, and these of them have locked slots. Other bytes stay as they are.
fn lay(random: &mut Random, image: &mut [u8], working: u8, block: usize, cards: u8, locked: u8) {
    for card in 0..CARDS {
        if !has(working, card) {
            continue;
        }
        let first = &mut image[block_at(card, block).start];
        *first = *first & 0x7F | if has(cards, card) { 0x80 } else { 0 };
        if !has(cards, card) {
            continue;
        }
        for place in 0..PLACES {
            change_slot(image, card, block, place, |slot| slot.lock = 0);
        }
        if has(locked, card) {
            let lock = 1 + random.below(15) as u8;
            change_slot(image, card, block, random.below(PLACES), |slot| slot.lock = lock);
        }
    }
}
