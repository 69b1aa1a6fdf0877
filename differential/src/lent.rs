//! A lent list of random bytes, with random bytes on both sides of it that no call may change.

use crate::pair::{first_difference, DifferentByte, ALIGNMENTS, GUARD};
use model::move_list::Move;
use model::random::Random;
use std::ops::Range;

#[derive(Clone)]
pub struct Lent {
    whole: Vec<u8>,
    list: Range<usize>,
}

impl Lent {
    /// Of this length, at any alignment.
    pub fn random(random: &mut Random, length: usize) -> Lent {
        let first = GUARD + random.below(ALIGNMENTS);
        let mut whole = vec![0; first + length + GUARD];
        random.fill(&mut whole);
        Lent { whole, list: first..first + length }
    }

    pub fn bytes(&self) -> &[u8] {
        &self.whole[self.list.clone()]
    }

    pub fn bytes_mut(&mut self) -> &mut [u8] {
        &mut self.whole[self.list.clone()]
    }

    /// The list with these entries; the last byte of an odd length stays.
    pub fn with_entries(mut self, entries: &[Move]) -> Lent {
        for (bytes, from) in self.bytes_mut().chunks_exact_mut(2).zip(entries) {
            bytes.copy_from_slice(&[from.card, from.block]);
        }
        self
    }

    /// Where the archive's list differs from the model's.
    pub fn different_byte(&self, model: &Lent) -> Option<DifferentByte> {
        first_difference(&self.whole, &model.whole, self.list.start)
    }
}

/// The entries that a list has room for.
pub fn entries(bytes: &[u8]) -> Vec<Move> {
    bytes.chunks_exact(2).map(|entry| Move { card: entry[0], block: entry[1] }).collect()
}
