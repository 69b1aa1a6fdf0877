//! Plans over the records that are there: values are left pending, and what is pending or committed is used.

use super::maker::Maker;
use crate::calls::Call;
use crate::control::{bit, Control};
use crate::edition::BROKEN_WIRE;
use crate::image::{place_of, read_slot, Slot, RECORDS};
use crate::sites::{holders, members};

/// The slot of each record at its first holder, where it has one.
fn first_slots(image: &[u8], control: &Control) -> Vec<(u16, Slot)> {
    let slot = |record: u16| {
        let (block, place) = place_of(record);
        holders(image, control, block).first().map(|card| read_slot(image, *card, block, place))
    };
    (0..RECORDS as u16).filter_map(|record| Some((record, slot(record)?))).collect()
}

/// The records that open transactions lock, as transaction and record.
fn locked_records(image: &[u8], control: &Control) -> Vec<(u8, u16)> {
    let locks = first_slots(image, control).into_iter().map(|(record, slot)| (slot.lock, record));
    locks.filter(|(lock, _)| *lock != 0 && control.is_open(*lock)).collect()
}

/// The records that have a committed value and no lock.
fn committed_records(image: &[u8], control: &Control) -> Vec<u16> {
    let present = first_slots(image, control).into_iter().filter(|(_, slot)| slot.present && slot.lock == 0);
    present.map(|(record, _)| record).collect()
}

impl Maker {
    /// Some transactions store values by turns and stay open. Nothing comes between.
    pub(super) fn plan_pending(&mut self, control: &Control) {
        self.plan.clear();
        let mut closed: Vec<u8> = (1..=15).filter(|transaction| !control.is_open(*transaction)).collect();
        self.random.shuffle(&mut closed);
        closed.truncate(4);
        let homes = members(control.newest().mask);
        for transaction in &closed {
            self.plan.push_back(Call::Begin { transaction: *transaction, home: self.random.one_of(&homes) as u8 });
        }
        for transaction in closed.repeat(6) {
            let (record, value) = (self.record(), self.value());
            self.plan.push_back(Call::Store { transaction, record, value });
        }
        self.steady = true;
    }

    /// Records that are there are read and changed: committed ones by two transactions, one of which is rolled back,
    /// and pending ones by their own, which close. Then these are read again.
    pub(super) fn plan_use_of_all(&mut self, control: &Control) {
        let (transaction, home) = self.newcomer(control);
        for close in [Call::Rollback { transaction }, Call::Commit { transaction }] {
            self.plan.push_back(Call::Begin { transaction, home });
            let mut committed = committed_records(&self.image, control);
            self.random.shuffle(&mut committed);
            for record in committed.into_iter().take(20) {
                self.plan_use(transaction, record);
            }
            self.plan.push_back(close);
        }
        let mut pending = locked_records(&self.image, control);
        self.random.shuffle(&mut pending);
        for (transaction, record) in &pending {
            self.plan_use(*transaction, *record);
        }
        let left = control.newest().mask & !self.plan_closes(control);
        self.plan.push_back(Call::Begin { transaction, home: self.random.one_of(&members(left)) as u8 });
        self.plan.extend(pending.into_iter().map(|(_, record)| Call::Get { transaction, record }));
    }

    /// The record is read and perhaps changed.
    fn plan_use(&mut self, transaction: u8, record: u16) {
        self.plan.push_back(Call::Get { transaction, record });
        let value = self.value();
        self.plan.extend(match self.random.below(5) {
            0 => Some(Call::Store { transaction, record, value }),
            1 => Some(Call::Store { transaction, record, value: BROKEN_WIRE }),
            2 => Some(Call::Delete { transaction, record }),
            _ => None,
        });
    }

    /// Every open transaction closes, one perhaps by the failure of its home. The mask of the card that fails.
    fn plan_closes(&mut self, control: &Control) -> u8 {
        let mut failed = 0;
        for transaction in control.open() {
            let home = control.homes[transaction as usize].expect("an open transaction has a home");
            let fails = failed == 0 && !control.stops_without(home as usize) && self.random.chance(300);
            self.plan.push_back(match self.random.below(2) {
                _ if fails => Call::Fail { card: home },
                0 => Call::Rollback { transaction },
                _ => Call::Commit { transaction },
            });
            failed |= if fails { bit(home as usize) } else { 0 };
        }
        failed
    }
}
