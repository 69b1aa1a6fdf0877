//! The control part: bytes 0 to 31, what is kept for placements behind the tables, and their form.

use crate::edition::Edition;
use crate::image::{stamp_at, Layout, CARDS, CONTROL, MOST_ACTIVE, PAIRS_BYTES, STAMP_BYTES};
use crate::sites::{members, pack_pairs, unpack_pairs, Choice, Placement};
use std::ops::Range;

pub const TRANSACTIONS: usize = 15;

/// Home of each open transaction; place 0 is not used.
pub type Homes = [Option<u8>; TRANSACTIONS + 1];

pub const NO_HOMES: Homes = [None; TRANSACTIONS + 1];

pub const FORM: usize = CONTROL + MOST_ACTIVE * PAIRS_BYTES;

/// Where the serial of the newest placement lies in the control part, most significant byte first.
pub const SERIAL: Range<usize> = 23..26;

/// The serial and the members of the newest placement are together not above this.
pub const HIGHEST_SERIAL: u32 = 16_777_008;

/// The bytes that the control form speaks of: the control part, and then what is kept behind the tables.
pub type Form = [u8; FORM];

/// Those of an image; an older one keeps nothing behind its tables.
pub fn form_of(image: &[u8]) -> Form {
    let mut form = [0; FORM];
    form[..CONTROL].copy_from_slice(&image[..CONTROL]);
    let kept = &image[Layout::of(image).kept()];
    form[CONTROL..][..kept.len()].copy_from_slice(kept);
    form
}

pub fn put_form(image: &mut [u8], form: &Form) {
    image[..CONTROL].copy_from_slice(&form[..CONTROL]);
    let kept = Layout::of(image).kept();
    image[kept.clone()].copy_from_slice(&form[CONTROL..][..kept.len()]);
}

/// The serial in these bytes, most significant first.
pub fn serial_of(bytes: &[u8]) -> u32 {
    bytes.iter().fold(0, |serial, byte| serial << 8 | u32::from(*byte))
}

/// The stamp of a placement: its serial in 24 bits, then its mask.
pub fn stamp(serial: u32, mask: u8) -> [u8; STAMP_BYTES] {
    let [_, high, middle, low] = serial.to_be_bytes();
    [high, middle, low, mask]
}

/// What is kept for the placement at this place, oldest first.
pub fn kept(form: &Form, place: usize) -> &[u8] {
    &form[CONTROL + place * PAIRS_BYTES..][..PAIRS_BYTES]
}

#[derive(Clone, Debug, PartialEq, Eq)]
pub struct Control {
    pub stopped: bool,
    /// Active placements, oldest first.
    pub placements: Vec<Placement>,
    pub working: u8,
    pub failed: u8,
    pub homes: Homes,
    /// Of the newest placement; 0 by editions without serials.
    pub serial: u32,
}

/// Card 0 is the highest bit.
pub fn bit(card: usize) -> u8 {
    0x80 >> card
}

pub fn has(mask: u8, card: usize) -> bool {
    mask & bit(card) != 0
}

pub fn count(mask: u8) -> usize {
    (0..CARDS).filter(|card| has(mask, *card)).count()
}

/// The mark of a placement by rails at this place, oldest first.
pub fn rail_mark(place: usize) -> u8 {
    0x80 >> place
}

/// The mark of a placement by table at this place, oldest first.
pub fn table_mark(place: usize) -> u8 {
    0x08 >> place
}

/// The active placements; None where a mark or what is kept is not as it is to be.
fn read_placements(form: &Form, number: usize) -> Option<Vec<Placement>> {
    let mut placements = Vec::new();
    for place in 0..MOST_ACTIVE {
        let (mask, kept) = (form[1 + place], kept(form, place));
        let marks = (form[7] & rail_mark(place) != 0, form[7] & table_mark(place) != 0);
        let choice = match marks {
            (true, true) => return None,
            (false, true) => Choice::Table(unpack_pairs(kept)),
            _ if kept.iter().any(|byte| *byte != 0) => return None,
            (true, false) => Choice::Rails,
            (false, false) => Choice::Chained,
        };
        if let Choice::Table(pairs) = choice {
            let good = |pair: &[u8; 2]| pair[0] != pair[1] && pair.iter().all(|card| has(mask, *card as usize));
            if !pairs.iter().all(good) {
                return None;
            }
        }
        if place < number {
            placements.push(Placement { mask, choice });
        }
    }
    Some(placements)
}

/// None when a field is not zero that is to be.
fn read_homes(bytes: &[u8]) -> Option<Homes> {
    let mut homes = NO_HOMES;
    for transaction in 1..=TRANSACTIONS {
        let byte = bytes[7 + transaction];
        if byte & 0x0F != 0 {
            return None;
        }
        if byte & 0x80 != 0 {
            homes[transaction] = Some(byte >> 4 & 7);
        } else if byte != 0 {
            return None;
        }
    }
    Some(homes)
}

impl Control {
    /// The control part that a start leaves.
    pub fn fresh(edition: Edition, newest: Placement) -> Control {
        let (working, serial) = (newest.mask, edition.has_serials().into());
        Control { stopped: false, placements: vec![newest], working, failed: 0, homes: NO_HOMES, serial }
    }

    /// The placement becomes the newest, with the next serial.
    pub fn add_placement(&mut self, edition: Edition, newest: Placement) {
        self.placements.push(newest);
        self.serial += u32::from(edition.has_serials());
    }

    /// By today's form; None when it is broken.
    pub fn read(image: &[u8]) -> Option<Control> {
        Control::read_by(Edition::Today, image)
    }

    pub fn read_by(edition: Edition, image: &[u8]) -> Option<Control> {
        Control::of_form(edition, &form_of(image))
    }

    pub fn of_form(edition: Edition, bytes: &Form) -> Option<Control> {
        let number = (bytes[0] >> 4 & 7) as usize;
        if !(1..=4).contains(&number) {
            return None;
        }
        if bytes[0] & 0x0F != 0 || bytes[7] & !edition.marks(number) != 0 {
            return None;
        }
        let zeros = if edition.has_serials() { SERIAL.end } else { SERIAL.start };
        if bytes[zeros..CONTROL].iter().any(|b| *b != 0) {
            return None;
        }
        if bytes[1 + number..5].iter().any(|b| *b != 0) {
            return None;
        }
        let control = Control {
            stopped: bytes[0] & 0x80 != 0,
            placements: read_placements(bytes, number)?,
            working: bytes[5],
            failed: bytes[6],
            homes: read_homes(bytes)?,
            serial: serial_of(&bytes[SERIAL]),
        };
        let serial_fits = !edition.has_serials() || control.serial_fits();
        (control.sound() && serial_fits).then_some(control)
    }

    /// Each active placement had a serial of its own, and each member of the newest can still fail.
    fn serial_fits(&self) -> bool {
        let members = count(self.newest().mask) as u32;
        self.serial >= self.placements.len() as u32 && self.serial + members <= HIGHEST_SERIAL
    }

    /// The clauses of the form that speak of cards.
    fn sound(&self) -> bool {
        if self.working & self.failed != 0 {
            return false;
        }
        for Placement { mask, .. } in &self.placements {
            if count(*mask) < 2 || mask & !(self.working | self.failed) != 0 {
                return false;
            }
        }
        if let [_, _, third, fourth] = self.placements[..] {
            let extra = third.mask & !fourth.mask;
            if fourth.mask & !third.mask != 0 || count(extra) != 1 || extra & self.failed == 0 {
                return false;
            }
        }
        if self.stopped {
            return self.homes.iter().all(|home| home.is_none());
        }
        self.can_run() && self.homes.iter().flatten().all(|home| has(self.working, *home as usize))
    }

    /// What the form of a running store asks of cards and placements.
    pub fn can_run(&self) -> bool {
        self.newest().mask & !self.working == 0 && !self.must_stop()
    }

    /// Some active placement has two failed or fewer than two working members.
    fn must_stop(&self) -> bool {
        self.placements
            .iter()
            .any(|Placement { mask, .. }| count(mask & self.failed) >= 2 || count(mask & self.working) < 2)
    }

    /// A fail of this working card stops the store.
    pub fn stops_without(&self, card: usize) -> bool {
        let mut after = self.clone();
        after.mark_failed(card);
        after.must_stop()
    }

    /// Failing any one working card would not stop the store.
    pub fn protected(&self) -> bool {
        !members(self.working).into_iter().any(|card| self.stops_without(card))
    }

    pub fn write(&self, image: &mut [u8]) {
        put_form(image, &self.form());
    }

    pub fn form(&self) -> Form {
        let mut bytes = [0; FORM];
        bytes[0] = (self.stopped as u8) << 7 | (self.placements.len() as u8) << 4;
        for (place, placement) in self.placements.iter().enumerate() {
            bytes[1 + place] = placement.mask;
            match placement.choice {
                Choice::Chained => {}
                Choice::Rails => bytes[7] |= rail_mark(place),
                Choice::Table(pairs) => {
                    bytes[7] |= table_mark(place);
                    bytes[CONTROL + place * PAIRS_BYTES..][..PAIRS_BYTES].copy_from_slice(&pack_pairs(&pairs));
                }
            }
        }
        bytes[5] = self.working;
        bytes[6] = self.failed;
        bytes[SERIAL].copy_from_slice(&self.stamp()[..SERIAL.len()]);
        for transaction in 1..=TRANSACTIONS {
            if let Some(home) = self.homes[transaction] {
                bytes[7 + transaction] = 0x80 | home << 4;
            }
        }
        bytes
    }

    /// What a start and an added placement write to each working card.
    pub fn stamp(&self) -> [u8; STAMP_BYTES] {
        stamp(self.serial, self.newest().mask)
    }

    /// Writes the stamp of the newest placement to all cards that work, where tables have stamps.
    pub fn write_stamps(&self, image: &mut [u8]) {
        if Layout::of(image).has_stamps() {
            for card in members(self.working) {
                image[stamp_at(card)].copy_from_slice(&self.stamp());
            }
        }
    }

    /// The card no longer works and is marked failed.
    pub fn mark_failed(&mut self, card: usize) {
        self.working &= !bit(card);
        self.failed |= bit(card);
    }

    /// The card works and is failed no more.
    pub fn take_back(&mut self, card: usize) {
        self.failed &= !bit(card);
        self.working |= bit(card);
    }

    pub fn newest(&self) -> Placement {
        *self.placements.last().expect("a placement is active")
    }

    /// The card is a member of some active placement.
    pub fn placed(&self, card: usize) -> bool {
        self.placements.iter().any(|placement| has(placement.mask, card))
    }

    pub fn is_open(&self, transaction: u8) -> bool {
        self.homes[transaction as usize].is_some()
    }

    pub fn open(&self) -> Vec<u8> {
        (1..=TRANSACTIONS as u8).filter(|t| self.is_open(*t)).collect()
    }

    pub fn open_at(&self, card: usize) -> Vec<u8> {
        self.open().into_iter().filter(|t| self.homes[*t as usize] == Some(card as u8)).collect()
    }
}
