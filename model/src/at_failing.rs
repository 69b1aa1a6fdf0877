//! The tables of failed cards as they were when the cards failed, while a run puts noise into them.

use crate::control::Control;
use crate::image::{table_at, CARDS};
use crate::returns::returnable;
use crate::sites::members;

pub struct AtFailing {
    /// Each card's table, with its stamp, as it last was when the card failed.
    tables: [Vec<u8>; CARDS],
    /// The cards that were marked failed when last looked at.
    failed: u8,
}

impl AtFailing {
    pub fn new(image: &[u8]) -> AtFailing {
        let mut kept = AtFailing { tables: std::array::from_fn(|_| Vec::new()), failed: 0 };
        kept.note(image);
        kept
    }

    /// Looks at the image after a call, before noise comes.
    pub fn note(&mut self, image: &[u8]) {
        let failed = image[6];
        for card in members(failed & !self.failed) {
            self.tables[card] = image[table_at(card)].to_vec();
        }
        self.failed = failed;
    }

    /// Before a return: the card's table gets the bytes of its failing where it is to keep them, and where the return
    /// would else be taken. Says whether it did; a return with other bytes is refused.
    pub fn prepare_return(&self, image: &mut [u8], card: u8, kept: bool) -> bool {
        let keeps = kept || is_taken(image, card.into());
        if keeps && members(self.failed).contains(&card.into()) {
            image[table_at(card.into())].copy_from_slice(&self.tables[card as usize]);
        }
        keeps
    }
}

/// A return of the card would be taken.
fn is_taken(image: &[u8], card: usize) -> bool {
    let stopped = Control::read(image).filter(|control| control.stopped);
    stopped.is_some_and(|control| returnable(image, &control).contains(&card))
}
