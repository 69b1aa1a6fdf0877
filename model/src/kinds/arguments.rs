//! Arguments of calls: careful ones by what the store has, and careless ones.

use super::maker::Maker;
use crate::calls::{Call, Numbers};
use crate::control::{bit, has, Control};
use crate::edition::BROKEN_WIRE;
use crate::image::{held, held_blocks, CARDS, RECORDS};
use crate::sites::{members, sites};

/// Cards that a fit takes.
pub(super) fn idle(control: &Control) -> Vec<usize> {
    (0..CARDS).filter(|card| !has(control.working, *card) && !control.placed(*card)).collect()
}

/// Cards that a withdraw takes, their transactions aside.
fn spare(control: &Control) -> Vec<usize> {
    members(control.working).into_iter().filter(|card| !control.placed(*card)).collect()
}

/// Members of the mask whose failure does not stop the store.
pub(super) fn safe(control: &Control, mask: u8) -> Vec<usize> {
    members(mask).into_iter().filter(|card| !control.stops_without(*card)).collect()
}

/// The blocks that the mask's cards hold, as card and block.
pub(super) fn all_held(image: &[u8], mask: u8) -> Vec<(usize, usize)> {
    let blocks = |card: usize| held_blocks(image, card).into_iter().map(move |block| (card, block));
    members(mask).into_iter().flat_map(blocks).collect()
}

/// A move of the block from the card would change something.
pub(super) fn misplaced(image: &[u8], control: &Control, card: usize, block: usize) -> bool {
    let pair = sites(control.newest(), block);
    !pair.contains(&card) || pair.iter().any(|site| !held(image, *site, block))
}

pub(super) fn move_call(card: usize, block: usize) -> Call {
    Call::Move { card: card as u8, block: block as u16 }
}

impl Maker {
    pub(super) fn some_mask(&mut self, from: u8, least: usize, most: usize) -> u8 {
        let mut cards = members(from);
        self.random.shuffle(&mut cards);
        let least = least.min(cards.len());
        let most = most.min(cards.len());
        let size = least + self.random.below(most - least + 1);
        cards[..size].iter().fold(0, |mask, card| mask | bit(*card))
    }

    pub(super) fn value(&mut self) -> u16 {
        // What only earlier editions store is left in many records.
        if self.edition.stores(BROKEN_WIRE) && self.random.chance(400) {
            return BROKEN_WIRE;
        }
        match self.random.below(12) {
            0 => 0,
            1 => BROKEN_WIRE,
            2 => BROKEN_WIRE - 1,
            3 => 0x8000,
            4 => self.random.below(16) as u16,
            _ => self.random.below(0x1_0000) as u16,
        }
    }

    pub(super) fn record(&mut self) -> u16 {
        if self.random.chance(30) {
            self.random.below(RECORDS) as u16
        } else {
            self.random.one_of(&self.records)
        }
    }

    /// A call whose numbers fit their fields and mean little.
    pub(super) fn careless(&mut self, operation: u8) -> Call {
        let transaction = self.random.below(16) as u8;
        let cards = if self.random.chance(900) { 8 } else { 16 };
        let card = self.random.below(cards) as u8;
        let record = match self.random.below(10) {
            0 => self.random.below(4096) as u16,
            1 => self.random.below(RECORDS) as u16,
            _ => self.record(),
        };
        let block = if self.random.chance(900) { record / 8 } else { record };
        let mut mask = self.random.byte();
        let value = self.value();
        if operation == 0 {
            mask = self.random.one_of(&[mask, 0, 0x80, 0x01, 0x10]);
        }
        Call::of(operation, &Numbers { transaction, card, record, block, value, mask }).expect("operations 0 to 14")
    }

    /// A call that the store is likely to accept, if the operation can be.
    pub(super) fn careful(&mut self, operation: u8, control: &Control) -> Call {
        let open = self.random.any_of(&control.open());
        let call = match operation {
            0 => Some(self.start_call()),
            1 => Some(self.begin_call(control)),
            2..=6 => match open {
                Some(transaction) => self.use_call(operation, transaction),
                None => Some(self.begin_call(control)),
            },
            7 => self.random.any_of(&idle(control)).map(|card| Call::Fit { card: card as u8 }),
            8 => self.random.any_of(&spare(control)).map(|card| Call::Withdraw { card: card as u8 }),
            9 => Some(self.place_call(control)),
            10 => Some(self.fail_call(control)),
            11 => self.useful_move(control),
            14 => Some(Call::Load { card: self.random.one_of(&members(control.working)) as u8 }),
            _ => None,
        };
        call.unwrap_or_else(|| self.careless(operation))
    }

    pub(super) fn start_call(&mut self) -> Call {
        let (least, most) = self.profile.members;
        Call::Start { mask: self.some_mask(0xFF, least, most) }
    }

    /// A transaction, closed if there is one, and a home for it.
    pub(super) fn newcomer(&mut self, control: &Control) -> (u8, u8) {
        let closed: Vec<u8> = (1..=15).filter(|transaction| !control.is_open(*transaction)).collect();
        let home = self.random.one_of(&members(control.newest().mask)) as u8;
        let transaction = self.random.any_of(&closed);
        (transaction.unwrap_or_else(|| 1 + self.random.below(15) as u8), home)
    }

    fn begin_call(&mut self, control: &Control) -> Call {
        let (transaction, home) = self.newcomer(control);
        Call::Begin { transaction, home }
    }

    /// Get, store, delete, commit or rollback.
    fn use_call(&mut self, operation: u8, transaction: u8) -> Option<Call> {
        let record = self.record();
        let value = self.value();
        Call::of(operation, &Numbers { transaction, record, value, ..Numbers::default() })
    }

    /// Now and then the newest again, where the rules take it.
    pub(super) fn mask_to_place(&mut self, control: &Control) -> u8 {
        let newest = control.newest();
        if !self.edition.refuses_again(newest) && self.random.chance(300) {
            return newest.mask;
        }
        self.some_mask(control.working, 2, self.profile.placed)
    }

    pub(super) fn place_call(&mut self, control: &Control) -> Call {
        Call::Place { mask: self.mask_to_place(control) }
    }

    fn fail_call(&mut self, control: &Control) -> Call {
        if self.random.chance(self.profile.gentle) {
            if let Some(card) = self.random.any_of(&safe(control, control.working)) {
                return Call::Fail { card: card as u8 };
            }
            if self.random.chance(850) {
                return Call::Settle;
            }
        }
        Call::Fail { card: self.random.one_of(&members(control.working)) as u8 }
    }

    fn useful_move(&mut self, control: &Control) -> Option<Call> {
        let held = all_held(&self.image, control.working);
        let useful = |(card, block): &(usize, usize)| misplaced(&self.image, control, *card, *block);
        let wrong: Vec<(usize, usize)> = held.iter().copied().filter(useful).collect();
        let list = if self.random.chance(850) && !wrong.is_empty() { wrong } else { held };
        self.random.any_of(&list).map(|(card, block)| move_call(card, block))
    }
}
