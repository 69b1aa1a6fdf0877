//! What is special about an answered call, by name, so that it can be counted.

use crate::broken_wire_situations::broken_wire_situations;
use crate::calls::{Answer, Call};
use crate::control::{bit, has, Control};
use crate::edition::Edition;
use crate::image::*;
use crate::protection_situations::protection_situations;
use crate::rail_situations::rail_situations;
use crate::return_situations::stopped_situations;
use crate::sites::{holders, members, sites};
use crate::table_situations::table_situations;

/// The situations that are easily got wrong.
pub const SITUATIONS: &[&str] = &[
    "value from 1 holders", "value from 2 holders", "value from 3 holders", "value from 4 holders",
    "value though no newest site holds", "value pending", "value committed", "value with 1 active",
    "value with 2 active", "value with 3 active", "value with 4 active", "absent by own delete",
    "store to 0 holders", "store to 1 holders", "store to 2 holders", "store to 3 holders",
    "store to 4 holders", "store with 1 active", "store with 2 active", "store with 3 active",
    "store with 4 active", "delete at 1 holders", "delete at 2 holders", "delete at 3 holders",
    "commit of locks with 1 active", "commit of locks with 4 active",
    "rollback of locks with 1 active", "rollback of locks with 4 active",
    "0 copies, origin kept", "0 copies, origin dropped", "1 copies, origin kept",
    "1 copies, origin dropped", "2 copies, origin dropped", "move with 4 active", "retired 0",
    "retired 0 with blocks", "retired 1 with blocks", "retired 2 with blocks", "retired 3 with blocks",
    "stopped with 1 active", "stopped with 2 active", "stopped with 3 active", "stopped with 4 active",
    "stopped with locks", "stopped by a card outside the newest", "placed with 1 active",
    "placed with 2 active", "placed with 3 active", "unplaced with 1 active", "unplaced with 2 active",
    "unplaced with 3 active", "unplaced with 4 active", "placed, locks of its transactions elsewhere",
    "unplaced, locks of its transactions elsewhere", "placed, another failed before",
    "unplaced, another failed before", "unplaced, member of an older one", "fit of a failed card",
    "fit of a failed card with old contents", "fit refused, failed card in a placement",
    "begin refused, home in an older placement", "withdraw refused, in a placement",
    "place of an older mask again", "place refused with 3 active", "place refused with 4 active",
    "load above 0",
];

/// The names, given the image before the call. Of refusals 2, 3 and 4, only stores of 65,535 have some, and of a stopped
/// store only fails.
pub fn situations(before: &[u8], call: &Call, answer: &Answer) -> Vec<String> {
    let mut found: Vec<String> =
        broken_wire_situations(before, call, answer).into_iter().map(String::from).collect();
    found.extend(stopped_situations(before, call, answer));
    let in_range = call.in_range(Edition::Today);
    let Some(control) = Control::read(before).filter(|control| !control.stopped && in_range) else {
        return found;
    };
    found.extend(match *call {
        Call::Get { transaction, record } => of_get(before, &control, transaction, record, answer),
        Call::Store { .. } | Call::Delete { .. } | Call::Commit { .. } | Call::Rollback { .. } => {
            of_writes(before, &control, call, answer)
        }
        Call::Move { .. } | Call::Settle | Call::Load { .. } => of_blocks(before, &control, call, answer),
        Call::Fail { card } => of_fail(before, &control, card as usize, answer),
        _ => of_cards(before, &control, call, answer),
    });
    found.extend(rail_situations(&control, call, answer));
    found.extend(table_situations(&control, call, answer));
    found.extend(protection_situations(&control, call, answer));
    found
}

fn of_get(before: &[u8], control: &Control, transaction: u8, record: u16, answer: &Answer) -> Vec<String> {
    let mut found = Vec::new();
    let (block, place) = place_of(record);
    let cards = holders(before, control, block);
    let Some(first) = cards.first().map(|card| read_slot(before, *card, block, place)) else { return found };
    let own = first.lock == transaction;
    match answer {
        Answer::Value(_) => {
            found.push(format!("value from {} holders", cards.len()));
            found.push(format!("value {}", if own { "pending" } else { "committed" }));
            found.push(format!("value with {} active", control.placements.len()));
            if !sites(control.newest(), block).iter().any(|site| held(before, *site, block)) {
                found.push("value though no newest site holds".into());
            }
        }
        Answer::Absent if own && first.present => found.push("absent by own delete".into()),
        _ => {}
    }
    found
}

/// The transactions lock slots in blocks that cards of the mask hold.
fn locks(image: &[u8], mask: u8, transactions: &[u8]) -> bool {
    let locked = |card: usize, block: usize| {
        (0..PLACES).any(|place| transactions.contains(&read_slot(image, card, block, place).lock))
    };
    members(mask).into_iter().any(|card| held_blocks(image, card).into_iter().any(|block| locked(card, block)))
}

fn of_writes(before: &[u8], control: &Control, call: &Call, answer: &Answer) -> Vec<String> {
    let active = control.placements.len();
    let number_of_holders = |record: u16| holders(before, control, place_of(record).0).len();
    let locking = |transaction: u8| locks(before, control.working, &[transaction]);
    match *call {
        _ if *answer != Answer::Ok => Vec::new(),
        Call::Store { record, .. } => {
            vec![format!("store to {} holders", number_of_holders(record)), format!("store with {active} active")]
        }
        Call::Delete { record, .. } => vec![format!("delete at {} holders", number_of_holders(record))],
        Call::Commit { transaction } if locking(transaction) => vec![format!("commit of locks with {active} active")],
        Call::Rollback { transaction } if locking(transaction) => {
            vec![format!("rollback of locks with {active} active")]
        }
        _ => Vec::new(),
    }
}

fn of_blocks(before: &[u8], control: &Control, call: &Call, answer: &Answer) -> Vec<String> {
    match (*call, *answer) {
        (Call::Move { card, block }, Answer::Copies(copies)) => {
            let keeps = sites(control.newest(), block as usize).contains(&(card as usize));
            let origin = if keeps { "kept" } else { "dropped" };
            let active = control.placements.len();
            vec![format!("{copies} copies, origin {origin}"), format!("move with {active} active")]
        }
        (Call::Settle, Answer::Retired(retired)) => {
            let any = members(control.working).into_iter().any(|card| !held_blocks(before, card).is_empty());
            vec![format!("retired {retired}{}", if any { " with blocks" } else { "" })]
        }
        (Call::Load { .. }, Answer::Load(1..)) => vec!["load above 0".into()],
        _ => Vec::new(),
    }
}

fn of_fail(before: &[u8], control: &Control, card: usize, answer: &Answer) -> Vec<String> {
    let word = match answer {
        Answer::Stopped => "stopped",
        Answer::Placed(_) => "placed",
        Answer::Unplaced => "unplaced",
        _ => return Vec::new(),
    };
    let mut found = vec![format!("{word} with {} active", control.placements.len())];
    let others = control.working & !bit(card);
    if *answer == Answer::Stopped {
        if locks(before, others, &control.open()) {
            found.push("stopped with locks".into());
        }
        if !has(control.newest().mask, card) {
            found.push("stopped by a card outside the newest".into());
        }
        return found;
    }
    if locks(before, others, &control.open_at(card)) {
        found.push(format!("{word}, locks of its transactions elsewhere"));
    }
    if control.failed != 0 {
        found.push(format!("{word}, another failed before"));
    }
    if *answer == Answer::Unplaced && control.placed(card) {
        found.push("unplaced, member of an older one".into());
    }
    found
}

fn of_cards(before: &[u8], control: &Control, call: &Call, answer: &Answer) -> Vec<String> {
    let works = |card: u8| has(control.working, card as usize);
    let failed = |card: u8| has(control.failed, card as usize);
    let placed = |card: u8| control.placed(card as usize);
    match (*call, *answer) {
        (Call::Fit { card }, Answer::Ok) if failed(card) => {
            let stale = before[table_at(card as usize)].iter().any(|byte| *byte != 0);
            vec![format!("fit of a failed card{}", if stale { " with old contents" } else { "" })]
        }
        (Call::Fit { card }, Answer::Refused(8)) if failed(card) => {
            vec!["fit refused, failed card in a placement".into()]
        }
        (Call::Begin { home, .. }, Answer::Refused(8)) if placed(home) && works(home) => {
            vec!["begin refused, home in an older placement".into()]
        }
        (Call::Withdraw { card }, Answer::Refused(8)) if placed(card) => {
            vec!["withdraw refused, in a placement".into()]
        }
        (Call::Place { mask }, Answer::Ok) if control.placements.iter().any(|older| older.mask == mask) => {
            vec!["place of an older mask again".into()]
        }
        (Call::Place { .. }, Answer::Refused(10)) => {
            vec![format!("place refused with {} active", control.placements.len())]
        }
        _ => Vec::new(),
    }
}
