//! What 65,535, read as a broken wire, makes special about an answered call, by name.

use crate::calls::{Answer, Call};
use crate::control::{bit, Control};
use crate::edition::{Edition, BROKEN_WIRE};
use crate::image::{held_blocks, place_of, read_slot, Slot, PLACES};
use crate::sites::{holders, members};

/// Situations that only a list from an older image reaches: an earlier store left the 65,535.
pub const LEFT_BROKEN_WIRE: &[&str] = &[
    "get of a committed 65535", "get of its own pending 65535", "delete of a committed 65535",
    "delete of its own pending 65535", "store over a committed 65535", "store over its own pending 65535",
    "store of 65535 refused over a committed 65535", "store of 65535 refused over its own pending 65535",
    "copies of a committed 65535", "load with a committed 65535", "commit of a pending 65535",
    "rollback of a pending 65535", "rollback of a change to a committed 65535", "fail rolls back a pending 65535",
    "fail of a holder of a committed 65535, another is left",
];

/// Situations that any list reaches. The word 'too' names a later refusal that applies as well.
pub const NO_BROKEN_WIRE: &[&str] = &[
    "store of 65535 refused", "store of 65535 refused, stopped too", "store of 65535 refused, not open too",
    "store of 65535 refused, locked by another too", "store of 65534", "get of 65534",
];

/// The largest value that store takes.
const LARGEST: u16 = BROKEN_WIRE - 1;

/// The names, given the image before the call.
pub fn broken_wire_situations(before: &[u8], call: &Call, answer: &Answer) -> Vec<&'static str> {
    // A value is the one number that an earlier edition finds in its range and today's does not.
    let in_range = call.in_range(Edition::Rails);
    let Some(control) = Control::read(before).filter(|_| in_range) else { return Vec::new() };
    match (*call, *answer) {
        (Call::Store { transaction, record, value: BROKEN_WIRE }, Answer::Refused(3)) => {
            of_refused_store(before, &control, transaction, record)
        }
        (_, Answer::Refused(_)) => Vec::new(),
        (Call::Get { transaction, record } | Call::Delete { transaction, record }, _)
        | (Call::Store { transaction, record, .. }, _) => {
            let found = found(&look(before, &control, record), transaction);
            of_record(call, found).into_iter().chain(of_largest(call, answer)).collect()
        }
        (Call::Commit { transaction }, _) => of_commit(before, &control, transaction),
        (Call::Rollback { transaction }, _) => of_rollback(before, &control, transaction),
        (Call::Move { card, block }, Answer::Copies(1..)) if committed_in(before, card as usize, block as usize) => {
            vec!["copies of a committed 65535"]
        }
        (Call::Load { card }, _) if committed_on(before, card as usize) => vec!["load with a committed 65535"],
        (Call::Fail { card }, _) => of_fail(before, &control, card as usize, answer),
        _ => Vec::new(),
    }
}

fn has_committed(slot: &Slot) -> bool {
    slot.committed() == Some(BROKEN_WIRE)
}

fn has_pending(slot: &Slot) -> bool {
    slot.pending() == Some(BROKEN_WIRE)
}

/// The slots of a record at its holders, in the order of the trail.
fn look(image: &[u8], control: &Control, record: u16) -> Vec<Slot> {
    let (block, place) = place_of(record);
    holders(image, control, block).into_iter().map(|card| read_slot(image, card, block, place)).collect()
}

/// Which state of a record is 65,535.
#[derive(Clone, Copy)]
enum Found {
    Committed,
    OwnPending,
}

/// The state that the transaction sees, if it is 65,535.
fn found(slots: &[Slot], transaction: u8) -> Option<Found> {
    match slots.first()? {
        slot if slot.lock == transaction => has_pending(slot).then_some(Found::OwnPending),
        slot => has_committed(slot).then_some(Found::Committed),
    }
}

fn of_refused_store(image: &[u8], control: &Control, transaction: u8, record: u16) -> Vec<&'static str> {
    if control.stopped {
        return vec!["store of 65535 refused, stopped too"];
    }
    if !control.is_open(transaction) {
        return vec!["store of 65535 refused, not open too"];
    }
    let slots = look(image, control, record);
    if slots.iter().any(|slot| slot.lock != 0 && slot.lock != transaction) {
        return vec!["store of 65535 refused, locked by another too"];
    }
    let over = match found(&slots, transaction) {
        Some(Found::Committed) => Some("store of 65535 refused over a committed 65535"),
        Some(Found::OwnPending) => Some("store of 65535 refused over its own pending 65535"),
        None => None,
    };
    over.into_iter().chain(["store of 65535 refused"]).collect()
}

/// Of a get, store or delete that is not refused.
fn of_record(call: &Call, found: Option<Found>) -> Option<&'static str> {
    match (call, found?) {
        (Call::Get { .. }, Found::Committed) => Some("get of a committed 65535"),
        (Call::Get { .. }, Found::OwnPending) => Some("get of its own pending 65535"),
        (Call::Store { .. }, Found::Committed) => Some("store over a committed 65535"),
        (Call::Store { .. }, Found::OwnPending) => Some("store over its own pending 65535"),
        (Call::Delete { .. }, Found::Committed) => Some("delete of a committed 65535"),
        (Call::Delete { .. }, Found::OwnPending) => Some("delete of its own pending 65535"),
        _ => None,
    }
}

fn of_largest(call: &Call, answer: &Answer) -> Option<&'static str> {
    match (call, answer) {
        (Call::Store { value: LARGEST, .. }, Answer::Ok) => Some("store of 65534"),
        (Call::Get { .. }, Answer::Value(LARGEST)) => Some("get of 65534"),
        _ => None,
    }
}

/// The slots that the transactions lock, on the cards of the mask in held blocks.
fn locked_by(image: &[u8], mask: u8, transactions: &[u8]) -> Vec<Slot> {
    let mut found = Vec::new();
    for card in members(mask) {
        for block in held_blocks(image, card) {
            let slots = (0..PLACES).map(|place| read_slot(image, card, block, place));
            found.extend(slots.filter(|slot| transactions.contains(&slot.lock)));
        }
    }
    found
}

fn of_commit(image: &[u8], control: &Control, transaction: u8) -> Vec<&'static str> {
    let pending = locked_by(image, control.working, &[transaction]).iter().any(has_pending);
    pending.then_some("commit of a pending 65535").into_iter().collect()
}

fn of_rollback(image: &[u8], control: &Control, transaction: u8) -> Vec<&'static str> {
    let slots = locked_by(image, control.working, &[transaction]);
    let pending = slots.iter().any(has_pending);
    let comes_back = slots.iter().any(|slot| has_committed(slot) && !has_pending(slot));
    let names = [
        pending.then_some("rollback of a pending 65535"),
        comes_back.then_some("rollback of a change to a committed 65535"),
    ];
    names.into_iter().flatten().collect()
}

/// The card's copy of the block has a committed 65,535.
fn committed_in(image: &[u8], card: usize, block: usize) -> bool {
    (0..PLACES).any(|place| has_committed(&read_slot(image, card, block, place)))
}

/// The card holds a block with a committed 65,535.
fn committed_on(image: &[u8], card: usize) -> bool {
    held_blocks(image, card).into_iter().any(|block| committed_in(image, card, block))
}

fn of_fail(image: &[u8], control: &Control, card: usize, answer: &Answer) -> Vec<&'static str> {
    let stopped = *answer == Answer::Stopped;
    let closing = if stopped { control.open() } else { control.open_at(card) };
    let rolled_back = locked_by(image, control.working & !bit(card), &closing).iter().any(has_pending);
    let another_is_left = |block: usize| {
        let cards = holders(image, control, block);
        cards.contains(&card) && cards.into_iter().any(|other| other != card && committed_in(image, other, block))
    };
    let still_read = !stopped && held_blocks(image, card).into_iter().any(another_is_left);
    let names = [
        rolled_back.then_some("fail rolls back a pending 65535"),
        still_read.then_some("fail of a holder of a committed 65535, another is left"),
    ];
    names.into_iter().flatten().collect()
}
