//! Where things lie in the image, and the fields of a slot.

use std::ops::Range;

pub const LENGTH: usize = 21_248;
/// The length by the edition before stamps: the card tables end with their blocks.
pub const OLDER_LENGTH: usize = 21_216;
/// The length by the editions before tables of plants: nothing lies behind the card tables.
pub const OLDEST_LENGTH: usize = 21_024;
pub const CONTROL: usize = 32;
pub const CARDS: usize = 8;
pub const BLOCKS: usize = 64;
pub const PLACES: usize = 8;
pub const RECORDS: usize = BLOCKS * PLACES;
pub const SLOT_BYTES: usize = 5;
pub const BLOCK_BYTES: usize = 1 + PLACES * SLOT_BYTES;
/// All blocks of a card's table.
pub const BLOCKS_BYTES: usize = BLOCKS * BLOCK_BYTES;
/// The serial and the mask of a placement, behind a table's blocks.
pub const STAMP_BYTES: usize = 4;
pub const TABLE_BYTES: usize = BLOCKS_BYTES + STAMP_BYTES;
/// Where all card tables lie, with their stamps.
pub const TABLES: Range<usize> = CONTROL..CONTROL + CARDS * TABLE_BYTES;
/// The most placements that are active.
pub const MOST_ACTIVE: usize = 4;
/// What is kept for a placement by table: 6 bits a block.
pub const PAIRS_BYTES: usize = BLOCKS * 6 / 8;
/// What is kept for all placements, behind the card tables.
pub const KEPT: Range<usize> = TABLES.end..LENGTH;

/// Where tables and what is kept lie, which the length of an image tells.
#[derive(Clone, Copy, Debug, PartialEq, Eq)]
pub struct Layout {
    length: usize,
    table_bytes: usize,
}

impl Layout {
    pub const TODAY: Layout = Layout { length: LENGTH, table_bytes: TABLE_BYTES };

    /// Of an image of this length; any other is read as of today.
    pub fn of(image: &[u8]) -> Layout {
        match image.len() {
            OLDER_LENGTH | OLDEST_LENGTH => Layout { length: image.len(), table_bytes: BLOCKS_BYTES },
            _ => Layout::TODAY,
        }
    }

    pub fn has_stamps(self) -> bool {
        self.table_bytes == TABLE_BYTES
    }

    /// Where a card's table lies, with its stamp.
    pub fn table_at(self, card: usize) -> Range<usize> {
        let first = CONTROL + card * self.table_bytes;
        first..first + self.table_bytes
    }

    /// Where a block of a card's table lies.
    pub fn block_at(self, card: usize, block: usize) -> Range<usize> {
        let first = self.table_at(card).start + block * BLOCK_BYTES;
        first..first + BLOCK_BYTES
    }

    /// Where the slot at a place of a block lies.
    pub fn slot_at(self, card: usize, block: usize, place: usize) -> Range<usize> {
        let first = self.block_at(card, block).start + 1 + place * SLOT_BYTES;
        first..first + SLOT_BYTES
    }

    /// Where all card tables lie.
    pub fn tables(self) -> Range<usize> {
        CONTROL..self.table_at(CARDS).start
    }

    /// What is kept for all placements; empty before tables of plants.
    pub fn kept(self) -> Range<usize> {
        self.tables().end..self.length
    }
}

/// Where a card's table lies today, with its stamp.
pub fn table_at(card: usize) -> Range<usize> {
    Layout::TODAY.table_at(card)
}

/// Where the stamp of a card's table lies.
pub fn stamp_at(card: usize) -> Range<usize> {
    let end = table_at(card).end;
    end - STAMP_BYTES..end
}

/// Where a block of a card's table lies today.
pub fn block_at(card: usize, block: usize) -> Range<usize> {
    Layout::TODAY.block_at(card, block)
}

/// Where the slot at a place of a block lies today.
pub fn slot_at(card: usize, block: usize, place: usize) -> Range<usize> {
    Layout::TODAY.slot_at(card, block, place)
}

/// The block of a record and its place there.
pub fn place_of(record: u16) -> (usize, usize) {
    (record as usize / PLACES, record as usize % PLACES)
}

pub fn held(image: &[u8], card: usize, block: usize) -> bool {
    image[Layout::of(image).block_at(card, block).start] & 0x80 != 0
}

/// Some slot of the card's copy is locked.
pub fn locked(image: &[u8], card: usize, block: usize) -> bool {
    (0..PLACES).any(|place| read_slot(image, card, block, place).lock != 0)
}

pub fn held_blocks(image: &[u8], card: usize) -> Vec<usize> {
    (0..BLOCKS).filter(|block| held(image, card, *block)).collect()
}

/// The 40 bits of a slot by name. `rest` is the two unnamed bits.
#[derive(Clone, Copy, Debug, PartialEq, Eq)]
pub struct Slot {
    pub present: bool,
    pub value: u16,
    pub lock: u8,
    pub pending_present: bool,
    pub pending_value: u16,
    pub rest: u8,
}

impl Slot {
    pub fn unpack(bytes: &[u8]) -> Slot {
        let mut word: u64 = 0;
        for byte in bytes {
            word = word << 8 | *byte as u64;
        }
        // Fields are taken from the low end, so in reverse order.
        let mut take = |bits: u32| {
            let field = word & ((1 << bits) - 1);
            word >>= bits;
            field
        };
        let rest = take(2) as u8;
        let pending_value = take(16) as u16;
        let pending_present = take(1) == 1;
        let lock = take(4) as u8;
        let value = take(16) as u16;
        let present = take(1) == 1;
        Slot { present, value, lock, pending_present, pending_value, rest }
    }

    pub fn pack(&self) -> [u8; SLOT_BYTES] {
        let mut word: u64 = 0;
        let mut put = |bits: u32, field: u64| word = word << bits | field;
        put(1, self.present as u64);
        put(16, self.value as u64);
        put(4, self.lock as u64);
        put(1, self.pending_present as u64);
        put(16, self.pending_value as u64);
        put(2, self.rest as u64);
        let wide = word.to_be_bytes();
        [wide[3], wide[4], wide[5], wide[6], wide[7]]
    }

    pub fn committed(&self) -> Option<u16> {
        self.present.then_some(self.value)
    }

    pub fn pending(&self) -> Option<u16> {
        self.pending_present.then_some(self.pending_value)
    }

    /// Locks the slot; a pending absence has value 0.
    pub fn set_pending(&mut self, transaction: u8, state: Option<u16>) {
        self.lock = transaction;
        self.pending_present = state.is_some();
        self.pending_value = state.unwrap_or(0);
    }

    pub fn take_pending(&mut self) {
        self.present = self.pending_present;
        self.value = if self.pending_present { self.pending_value } else { 0 };
        self.drop_pending();
    }

    pub fn drop_pending(&mut self) {
        self.lock = 0;
        self.pending_present = false;
        self.pending_value = 0;
    }
}

pub fn read_slot(image: &[u8], card: usize, block: usize, place: usize) -> Slot {
    Slot::unpack(&image[Layout::of(image).slot_at(card, block, place)])
}

pub fn change_slot(image: &mut [u8], card: usize, block: usize, place: usize, change: impl FnOnce(&mut Slot)) {
    let mut slot = read_slot(image, card, block, place);
    change(&mut slot);
    let at = Layout::of(image).slot_at(card, block, place);
    image[at].copy_from_slice(&slot.pack());
}
