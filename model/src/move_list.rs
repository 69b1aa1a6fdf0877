//! The move list of change request A.3: the fewest moves that let settle succeed.

use crate::control::{bit, count, has, Control};
use crate::image::*;
use crate::sites::{members, sites, Placement};
use std::fmt;
use std::iter::successors;

/// The card that a block moves from, and the block.
#[derive(Clone, Copy, Debug, Default, PartialEq, Eq)]
pub struct Move {
    pub card: u8,
    pub block: u8,
}

/// A list with room for so many entries is never too short.
pub const MOST_MOVES: usize = CARDS * BLOCKS;

#[derive(Clone, Copy, Debug, PartialEq, Eq)]
pub enum ListAnswer {
    /// So many entries of the lent list are the moves.
    Listed(usize),
    /// A block that must still move is locked on a card that it would move from.
    None,
    Refused(u8),
}

impl fmt::Display for ListAnswer {
    fn fmt(&self, f: &mut fmt::Formatter) -> fmt::Result {
        match self {
            ListAnswer::Listed(number) => write!(f, "listed {number}"),
            ListAnswer::None => write!(f, "none"),
            ListAnswer::Refused(number) => write!(f, "refused {number}"),
        }
    }
}

/// The control part of a running store, else the refusal.
pub fn running(image: &[u8]) -> Result<Control, ListAnswer> {
    if image.len() != LENGTH {
        return Err(ListAnswer::Refused(1));
    }
    let control = Control::read(image).ok_or(ListAnswer::Refused(2))?;
    if control.stopped { Err(ListAnswer::Refused(4)) } else { Ok(control) }
}

/// Lists the moves. The lent list changes only where they are listed, and only in their entries.
pub fn move_list(image: &[u8], list: &mut [Move]) -> ListAnswer {
    let control = match running(image) {
        Err(refused) => return refused,
        Ok(control) => control,
    };
    let moves = fewest_moves(image, &control);
    if moves.iter().any(|from| locked(image, from.card as usize, from.block as usize)) {
        return ListAnswer::None;
    }
    match list.get_mut(..moves.len()) {
        None => ListAnswer::Refused(16),
        Some(entries) => {
            entries.copy_from_slice(&moves);
            ListAnswer::Listed(moves.len())
        }
    }
}

/// Blocks rising and then cards rising, locked or not.
pub fn fewest_moves(image: &[u8], control: &Control) -> Vec<Move> {
    let mut moves = Vec::new();
    for block in 0..BLOCKS {
        let senders = fewest_senders(holding(image, control, block), site_mask(control.newest(), block));
        moves.extend(members(senders).into_iter().map(|card| Move { card: card as u8, block: block as u8 }));
    }
    moves
}

/// The sites of a block as a set of cards.
pub fn site_mask(placement: Placement, block: usize) -> u8 {
    sites(placement, block).into_iter().fold(0, |cards, site| cards | bit(site))
}

/// The working cards that hold the block.
pub fn holding(image: &[u8], control: &Control, block: usize) -> u8 {
    let cards = (0..CARDS).filter(|card| has(control.working, *card) && held(image, *card, block));
    cards.fold(0, |mask, card| mask | bit(card))
}

/// Settle's condition on one block.
fn settles(holding: u8, wanted: u8) -> bool {
    holding == 0 || holding == wanted
}

/// The cards that hold a block after each of the senders has moved it.
fn after_moves(holding: u8, senders: u8, wanted: u8) -> u8 {
    if senders == 0 { holding } else { (holding | wanted) & !(senders & !wanted) }
}

/// The smallest set of holding cards after whose moves the block settles; of several the one with the lowest card.
fn fewest_senders(holding: u8, wanted: u8) -> u8 {
    // Falling, so sets with lower cards come first; the first of the smallest is taken.
    let sets = successors(Some(holding), |set| (*set > 0).then(|| (set - 1) & holding));
    let enough = sets.filter(|senders| settles(after_moves(holding, *senders, wanted), wanted));
    enough.min_by_key(|senders| count(*senders)).expect("a move from every card settles the block")
}
