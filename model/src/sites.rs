//! Placements, their sites, the trail of a block and its holders.

use crate::control::{has, Control};
use crate::image::{held, BLOCKS, CARDS, PAIRS_BYTES};

/// Slots 0 to 3 hang on one supply rail, 4 to 7 on the other.
const CARDS_ON_A_RAIL: usize = 4;

/// Two cards for each block, first site first.
pub type Pairs = [[u8; 2]; BLOCKS];

/// How a placement chooses the sites of a block.
#[derive(Clone, Copy, Debug, PartialEq, Eq)]
pub enum Choice {
    /// Both marks 0: the second site is the member after the first.
    Chained,
    /// Marked in the high bits of byte 7: the second site is chosen by rails.
    Rails,
    /// Marked in the low bits of byte 7: a plant's table gives both.
    Table(Pairs),
}

#[derive(Clone, Copy, Debug, PartialEq, Eq)]
pub struct Placement {
    pub mask: u8,
    pub choice: Choice,
}

impl Placement {
    /// By the base's choice.
    pub fn chained(mask: u8) -> Placement {
        Placement { mask, choice: Choice::Chained }
    }

    pub fn by_rails(mask: u8) -> Placement {
        Placement { mask, choice: Choice::Rails }
    }

    /// Its members are the cards that the pairs name.
    pub fn by_table(pairs: Pairs) -> Placement {
        let mask = pairs.iter().flatten().fold(0, |mask, card| mask | 0x80 >> card);
        Placement { mask, choice: Choice::Table(pairs) }
    }

    pub fn is_chained(&self) -> bool {
        self.choice == Choice::Chained
    }

    pub fn is_by_rails(&self) -> bool {
        self.choice == Choice::Rails
    }

    pub fn is_by_table(&self) -> bool {
        matches!(self.choice, Choice::Table(_))
    }
}

/// The pairs in what is kept for a placement: three bits a card, block 0 first.
pub fn unpack_pairs(bytes: &[u8]) -> Pairs {
    let bit = |at: usize| bytes[at / 8] >> (7 - at % 8) & 1;
    let card = |at: usize| bit(at) << 2 | bit(at + 1) << 1 | bit(at + 2);
    std::array::from_fn(|block| [card(6 * block), card(6 * block + 3)])
}

pub fn pack_pairs(pairs: &Pairs) -> [u8; PAIRS_BYTES] {
    let mut bytes = [0; PAIRS_BYTES];
    for (at, card) in pairs.iter().flatten().enumerate() {
        for place in 0..3 {
            let bit = 3 * at + place;
            bytes[bit / 8] |= (card >> (2 - place) & 1) << (7 - bit % 8);
        }
    }
    bytes
}

pub fn rail(card: usize) -> usize {
    card / CARDS_ON_A_RAIL
}

/// Members of a mask in rising order.
pub fn members(mask: u8) -> Vec<usize> {
    (0..CARDS).filter(|card| has(mask, *card)).collect()
}

/// The two sites of a block; the mask has a member.
pub fn sites(placement: Placement, block: usize) -> [usize; 2] {
    if let Choice::Table(pairs) = placement.choice {
        return pairs[block].map(usize::from);
    }
    let members = members(placement.mask);
    let m = members.len();
    let first = members[block % m];
    let next = members[(block + 1) % m];
    if placement.is_chained() {
        return [first, next];
    }
    let mut round = (1..m).map(|step| members[(block + step) % m]);
    let other_rail = round.find(|card| rail(*card) != rail(first));
    [first, other_rail.unwrap_or(next)]
}

/// Sites of all active placements, oldest first, failed cards skipped.
pub fn trail(control: &Control, block: usize) -> Vec<usize> {
    let all = control.placements.iter().flat_map(|placement| sites(*placement, block));
    all.filter(|card| !has(control.failed, *card)).collect()
}

/// Cards of the trail that hold the block, in trail order, each once.
pub fn holders(image: &[u8], control: &Control, block: usize) -> Vec<usize> {
    let mut found = Vec::new();
    for card in trail(control, block) {
        if held(image, card, block) && !found.contains(&card) {
            found.push(card);
        }
    }
    found
}
