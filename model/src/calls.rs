//! The fifteen calls.

use crate::control::{bit, count, has, Control};
use crate::edition::Edition;
use crate::image::*;
use crate::sites::{holders, members, sites, Placement};

#[derive(Clone, Copy, Debug, PartialEq, Eq)]
pub enum Answer {
    Ok,
    Value(u16),
    Absent,
    Placed(u8),
    Unplaced,
    Stopped,
    Copies(u8),
    Retired(u8),
    Protected,
    Unprotected,
    Load(u16),
    /// How many bytes of a lent buffer were written.
    Written(u16),
    Refused(u8),
}

#[derive(Clone, Copy, Debug, PartialEq, Eq)]
pub enum Call {
    Start { mask: u8 },
    Begin { transaction: u8, home: u8 },
    Get { transaction: u8, record: u16 },
    Store { transaction: u8, record: u16, value: u16 },
    Delete { transaction: u8, record: u16 },
    Commit { transaction: u8 },
    Rollback { transaction: u8 },
    Fit { card: u8 },
    Withdraw { card: u8 },
    Place { mask: u8 },
    Fail { card: u8 },
    Move { card: u8, block: u16 },
    Settle,
    State,
    Load { card: u8 },
}

/// A number of each naming, of which a call takes those that it has.
#[derive(Clone, Copy, Debug, Default)]
pub struct Numbers {
    pub transaction: u8,
    pub card: u8,
    pub record: u16,
    pub block: u16,
    pub value: u16,
    pub mask: u8,
}

impl Call {
    /// The call of an operation 0 to 14.
    pub fn of(operation: u8, numbers: &Numbers) -> Option<Call> {
        let Numbers { transaction, card, record, block, value, mask } = *numbers;
        Some(match operation {
            0 => Call::Start { mask },
            1 => Call::Begin { transaction, home: card },
            2 => Call::Get { transaction, record },
            3 => Call::Store { transaction, record, value },
            4 => Call::Delete { transaction, record },
            5 => Call::Commit { transaction },
            6 => Call::Rollback { transaction },
            7 => Call::Fit { card },
            8 => Call::Withdraw { card },
            9 => Call::Place { mask },
            10 => Call::Fail { card },
            11 => Call::Move { card, block },
            12 => Call::Settle,
            13 => Call::State,
            14 => Call::Load { card },
            _ => return None,
        })
    }

    /// The transaction of every use but begin.
    pub fn used_transaction(&self) -> Option<u8> {
        match *self {
            Call::Get { transaction, .. }
            | Call::Store { transaction, .. }
            | Call::Delete { transaction, .. }
            | Call::Commit { transaction }
            | Call::Rollback { transaction } => Some(transaction),
            _ => None,
        }
    }

    /// Every number lies in its range by the edition. A mask is a byte and has none.
    pub fn in_range(&self, edition: Edition) -> bool {
        let transaction_fits = |t: u8| (1..=15).contains(&t);
        let record_fits = |r: u16| (r as usize) < RECORDS;
        let card_fits = |c: u8| (c as usize) < CARDS;
        match *self {
            Call::Start { .. } | Call::Place { .. } | Call::Settle | Call::State => true,
            Call::Begin { transaction, home } => transaction_fits(transaction) && card_fits(home),
            Call::Get { transaction, record } | Call::Delete { transaction, record } => {
                transaction_fits(transaction) && record_fits(record)
            }
            Call::Store { transaction, record, value } => {
                transaction_fits(transaction) && record_fits(record) && edition.stores(value)
            }
            Call::Commit { transaction } | Call::Rollback { transaction } => {
                transaction_fits(transaction)
            }
            Call::Fit { card }
            | Call::Withdraw { card }
            | Call::Fail { card }
            | Call::Load { card } => card_fits(card),
            Call::Move { card, block } => card_fits(card) && (block as usize) < BLOCKS,
        }
    }
}

/// An image after an accepted start.
pub fn started(mask: u8) -> Vec<u8> {
    let mut image = vec![0; LENGTH];
    assert_eq!(perform(&mut image, &Call::Start { mask }), Answer::Ok);
    image
}

/// Runs one call by today's rules. A refused call changes no byte.
pub fn perform(image: &mut [u8], call: &Call) -> Answer {
    perform_by(Edition::Today, image, call)
}

/// Runs one call by the rules of the edition.
pub fn perform_by(edition: Edition, image: &mut [u8], call: &Call) -> Answer {
    if image.len() != edition.length() {
        return Answer::Refused(1);
    }
    if let Call::Start { mask } = *call {
        return start(edition, image, mask);
    }
    let control = match admit(edition, image, call) {
        Err(refused) => return refused,
        Ok(control) => control,
    };
    match *call {
        Call::Start { .. } => unreachable!(),
        Call::Begin { transaction, home } => begin(image, control, transaction, home),
        Call::Get { transaction, record } => get(image, &control, transaction, record),
        Call::Store { transaction, record, value } => {
            store(image, &control, transaction, record, value)
        }
        Call::Delete { transaction, record } => delete(image, &control, transaction, record),
        Call::Commit { transaction } => close(image, control, transaction, Slot::take_pending),
        Call::Rollback { transaction } => close(image, control, transaction, Slot::drop_pending),
        Call::Fit { card } => fit(image, control, card as usize),
        Call::Withdraw { card } => withdraw(image, control, card as usize),
        Call::Place { mask } => place(edition, image, control, mask),
        Call::Fail { card } => fail(edition, image, control, card as usize),
        Call::Move { card, block } => move_block(image, &control, card as usize, block as usize),
        Call::Settle => settle(image, control),
        Call::State if edition.protected(&control) => Answer::Protected,
        Call::State => Answer::Unprotected,
        Call::Load { card } => load(image, &control, card as usize),
    }
}

/// The lowest that applies of refusals 2 to 5, else the control part.
fn admit(edition: Edition, image: &[u8], call: &Call) -> Result<Control, Answer> {
    let control = Control::read_by(edition, image).ok_or(Answer::Refused(2))?;
    if !call.in_range(edition) {
        return Err(Answer::Refused(3));
    }
    let marks = edition.has_serials() && matches!(call, Call::Fail { .. });
    if control.stopped && !marks {
        return Err(Answer::Refused(4));
    }
    if call.used_transaction().is_some_and(|transaction| !control.is_open(transaction)) {
        return Err(Answer::Refused(5));
    }
    Ok(control)
}

fn start(edition: Edition, image: &mut [u8], mask: u8) -> Answer {
    if count(mask) < 2 {
        return Answer::Refused(9);
    }
    image.fill(0);
    let control = Control::fresh(edition, edition.placement(mask));
    control.write(image);
    control.write_stamps(image);
    Answer::Ok
}

fn begin(image: &mut [u8], mut control: Control, transaction: u8, home: u8) -> Answer {
    if control.is_open(transaction) {
        return Answer::Refused(6);
    }
    if !has(control.newest().mask, home as usize) {
        return Answer::Refused(8);
    }
    control.homes[transaction as usize] = Some(home);
    control.write(image);
    Answer::Ok
}

/// What get, store and delete share: refusal 7, else the holders and the state
/// that the transaction sees.
fn look(
    image: &[u8],
    control: &Control,
    transaction: u8,
    record: u16,
) -> Result<(Vec<usize>, Option<u16>), Answer> {
    let (block, place) = place_of(record);
    let holders = holders(image, control, block);
    let slots: Vec<Slot> = holders.iter().map(|c| read_slot(image, *c, block, place)).collect();
    if slots.iter().any(|slot| slot.lock != 0 && slot.lock != transaction) {
        return Err(Answer::Refused(7));
    }
    let seen = match slots.first() {
        None => None,
        Some(slot) if slot.lock == transaction => slot.pending(),
        Some(slot) => slot.committed(),
    };
    Ok((holders, seen))
}

fn get(image: &[u8], control: &Control, transaction: u8, record: u16) -> Answer {
    match look(image, control, transaction, record) {
        Err(refused) => refused,
        Ok((_, Some(value))) => Answer::Value(value),
        Ok((_, None)) => Answer::Absent,
    }
}

fn store(image: &mut [u8], control: &Control, transaction: u8, record: u16, value: u16) -> Answer {
    let mut targets = match look(image, control, transaction, record) {
        Err(refused) => return refused,
        Ok((holders, _)) => holders,
    };
    let (block, _) = place_of(record);
    if targets.is_empty() {
        targets = sites(control.newest(), block).to_vec();
        for card in &targets {
            let at = Layout::of(image).block_at(*card, block);
            let bytes = &mut image[at];
            bytes.fill(0);
            bytes[0] = 0x80;
        }
    }
    lock_all(image, &targets, transaction, record, Some(value));
    Answer::Ok
}

fn delete(image: &mut [u8], control: &Control, transaction: u8, record: u16) -> Answer {
    match look(image, control, transaction, record) {
        Err(refused) => refused,
        Ok((_, None)) => Answer::Absent,
        Ok((holders, Some(_))) => {
            lock_all(image, &holders, transaction, record, None);
            Answer::Ok
        }
    }
}

fn lock_all(image: &mut [u8], cards: &[usize], transaction: u8, record: u16, state: Option<u16>) {
    let (block, place) = place_of(record);
    for card in cards {
        change_slot(image, *card, block, place, |slot| slot.set_pending(transaction, state));
    }
}

fn close(image: &mut [u8], mut control: Control, transaction: u8, step: fn(&mut Slot)) -> Answer {
    unlock(image, &mut control, &[transaction], step);
    control.write(image);
    Answer::Ok
}

/// Steps every slot that one of the transactions locks, on all working cards in
/// all held blocks, and closes the transactions.
fn unlock(image: &mut [u8], control: &mut Control, closing: &[u8], step: fn(&mut Slot)) {
    for card in members(control.working) {
        for block in held_blocks(image, card) {
            for place in 0..PLACES {
                if closing.contains(&read_slot(image, card, block, place).lock) {
                    change_slot(image, card, block, place, step);
                }
            }
        }
    }
    for transaction in closing {
        control.homes[*transaction as usize] = None;
    }
}

/// The stamp goes with the blocks.
fn clear_table(image: &mut [u8], card: usize) {
    let at = Layout::of(image).table_at(card);
    image[at].fill(0);
}

fn fit(image: &mut [u8], mut control: Control, card: usize) -> Answer {
    if has(control.working, card) || control.placed(card) {
        return Answer::Refused(8);
    }
    control.take_back(card);
    clear_table(image, card);
    control.write(image);
    Answer::Ok
}

fn withdraw(image: &mut [u8], mut control: Control, card: usize) -> Answer {
    if !has(control.working, card) || control.placed(card) {
        return Answer::Refused(8);
    }
    if !control.open_at(card).is_empty() {
        return Answer::Refused(14);
    }
    control.working &= !bit(card);
    clear_table(image, card);
    control.write(image);
    Answer::Ok
}

/// The placement becomes the newest, and all working cards take its stamp. The control part is still to be written.
pub(crate) fn add_placement(edition: Edition, image: &mut [u8], control: &mut Control, newest: Placement) {
    control.add_placement(edition, newest);
    control.write_stamps(image);
}

fn place(edition: Edition, image: &mut [u8], mut control: Control, mask: u8) -> Answer {
    let newest = control.newest();
    let again = mask == newest.mask && edition.refuses_again(newest);
    if count(mask) < 2 || mask & !control.working != 0 || again {
        return Answer::Refused(9);
    }
    if let Some(number) = edition.no_room(control.placements.len(), control.serial) {
        return Answer::Refused(number);
    }
    add_placement(edition, image, &mut control, edition.placement(mask));
    control.write(image);
    Answer::Ok
}

fn fail(edition: Edition, image: &mut [u8], mut control: Control, card: usize) -> Answer {
    if !has(control.working, card) {
        return Answer::Refused(8);
    }
    if control.stopped {
        control.mark_failed(card);
        control.write(image);
        return Answer::Stopped;
    }
    control.stopped = control.stops_without(card);
    control.mark_failed(card);
    let closing = if control.stopped { control.open() } else { control.open_at(card) };
    unlock(image, &mut control, &closing, Slot::drop_pending);
    let answer = if control.stopped {
        Answer::Stopped
    } else if has(control.newest().mask, card) {
        let mask = control.newest().mask & !bit(card);
        add_placement(edition, image, &mut control, edition.placement(mask));
        Answer::Placed(mask)
    } else {
        Answer::Unplaced
    };
    control.write(image);
    answer
}

fn move_block(image: &mut [u8], control: &Control, card: usize, block: usize) -> Answer {
    if !has(control.working, card) {
        return Answer::Refused(8);
    }
    if !held(image, card, block) {
        return Answer::Refused(11);
    }
    if locked(image, card, block) {
        return Answer::Refused(12);
    }
    let targets = sites(control.newest(), block);
    let layout = Layout::of(image);
    let mut copies = 0;
    for target in targets {
        if !held(image, target, block) {
            image.copy_within(layout.block_at(card, block), layout.block_at(target, block).start);
            copies += 1;
        }
    }
    if !targets.contains(&card) {
        image[layout.block_at(card, block)].fill(0);
    }
    Answer::Copies(copies)
}

fn settle(image: &mut [u8], mut control: Control) -> Answer {
    for block in 0..BLOCKS {
        let mut holding = members(control.working);
        holding.retain(|card| held(image, *card, block));
        let mut wanted = sites(control.newest(), block).to_vec();
        wanted.sort();
        if !holding.is_empty() && holding != wanted {
            return Answer::Refused(13);
        }
    }
    let retired = control.placements.len() - 1;
    control.placements = vec![control.newest()];
    control.write(image);
    Answer::Retired(retired as u8)
}

fn load(image: &[u8], control: &Control, card: usize) -> Answer {
    if !has(control.working, card) {
        return Answer::Refused(8);
    }
    let present = |block: usize| (0..PLACES).filter(|place| read_slot(image, card, block, *place).present).count();
    let records: usize = held_blocks(image, card).into_iter().map(present).sum();
    Answer::Load(records as u16)
}
