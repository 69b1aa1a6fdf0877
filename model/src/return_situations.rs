//! What is special about a return of a card, and about a fail while the store is stopped, by name.

use crate::calls::{Answer, Call};
use crate::control::{bit, count, has, serial_of, Control};
use crate::image::*;

/// What a run with returns must meet.
pub const RETURNS: &[&str] = &[
    "return ok, runs with 1 active", "return ok, runs with 2 active", "return ok, runs with 3 active",
    "return ok, runs with 4 active", "return ok, runs with a failed card left", "return ok, a newest member lacks",
    "return ok, the newest is whole and stays stopped", "return ok, locks dropped", "return ok, newest by table",
    "return refused 3", "return refused 3, running", "return refused 8, running",
    "return refused 8, running and failed", "return refused 8, running and stale too",
    "return refused 8, the card works",
    "return refused 8, neither working nor failed", "return refused 19, an older serial",
    "return refused 19, a later serial", "return refused 19, another mask", "return refused 19, not named",
    "return refused 19, a zero stamp", "return refused 19, stale and not named",
];

/// What a run of fails while stopped must meet.
pub const WHILE_STOPPED: &[&str] = &[
    "fail while stopped, a member of the newest", "fail while stopped, a member of an older one alone",
    "fail while stopped, a card outside the placements", "fail while stopped, the last working card",
    "fail while stopped refused 3", "fail while stopped refused 8, failed",
    "fail while stopped refused 8, neither working nor failed",
];

fn met(names: &[(&str, bool)]) -> Vec<String> {
    names.iter().filter(|(_, holds)| *holds).map(|(name, _)| name.to_string()).collect()
}

/// The names of a return, given the image before it.
pub fn return_situations(before: &[u8], card: u8, answer: &Answer) -> Vec<String> {
    let control = (before.len() == LENGTH).then(|| Control::read(before)).flatten();
    let Some(control) = control else { return Vec::new() };
    match answer {
        Answer::Ok => of_taken(before, &control, card.into()),
        Answer::Refused(3) => {
            met(&[("return refused 3", control.stopped), ("return refused 3, running", !control.stopped)])
        }
        Answer::Refused(8) => of_cards(before, &control, card.into()),
        Answer::Refused(19) => of_stale(before, &control, card.into()),
        _ => Vec::new(),
    }
}

fn of_taken(before: &[u8], control: &Control, card: usize) -> Vec<String> {
    let mut after = control.clone();
    after.take_back(card);
    let lacks = after.newest().mask & !after.working != 0;
    let locks = held_blocks(before, card).into_iter().any(|block| locked(before, card, block));
    let runs = after.can_run();
    let mut found = met(&[
        ("return ok, runs with a failed card left", runs && after.failed != 0),
        ("return ok, a newest member lacks", lacks),
        ("return ok, the newest is whole and stays stopped", !lacks && !runs),
        ("return ok, locks dropped", locks),
        ("return ok, newest by table", after.newest().is_by_table()),
    ]);
    if runs {
        found.push(format!("return ok, runs with {} active", after.placements.len()));
    }
    found
}

fn of_cards(before: &[u8], control: &Control, card: usize) -> Vec<String> {
    let (works, failed) = (has(control.working, card), has(control.failed, card));
    let stale = before[stamp_at(card)] != control.stamp();
    met(&[
        ("return refused 8, running", !control.stopped),
        ("return refused 8, running and failed", !control.stopped && failed),
        ("return refused 8, running and stale too", !control.stopped && failed && stale),
        ("return refused 8, the card works", control.stopped && works),
        ("return refused 8, neither working nor failed", control.stopped && !works && !failed),
    ])
}

fn of_stale(before: &[u8], control: &Control, card: usize) -> Vec<String> {
    let stamp = &before[stamp_at(card)];
    let (serial, mask) = (serial_of(&stamp[..3]), stamp[3]);
    let named = has(control.newest().mask, card);
    let same_serial = serial == control.serial;
    let same_mask = mask == control.newest().mask;
    met(&[
        ("return refused 19, an older serial", serial < control.serial && serial != 0 && same_mask),
        ("return refused 19, a later serial", serial > control.serial && same_mask),
        ("return refused 19, another mask", same_serial && !same_mask && named),
        ("return refused 19, not named", same_serial && same_mask && !named),
        ("return refused 19, a zero stamp", serial == 0 && mask == 0),
        ("return refused 19, stale and not named", !same_serial && !named),
    ])
}

/// The names of a fail while the store is stopped, given the image before it.
pub fn stopped_situations(before: &[u8], call: &Call, answer: &Answer) -> Vec<String> {
    let Call::Fail { card } = *call else { return Vec::new() };
    let control = (before.len() == LENGTH).then(|| Control::read(before)).flatten();
    let Some(control) = control.filter(|control| control.stopped) else { return Vec::new() };
    let card = card as usize;
    match answer {
        Answer::Stopped => met(&[
            ("fail while stopped, a member of the newest", has(control.newest().mask, card)),
            (
                "fail while stopped, a member of an older one alone",
                control.placed(card) && !has(control.newest().mask, card),
            ),
            ("fail while stopped, a card outside the placements", !control.placed(card)),
            ("fail while stopped, the last working card", count(control.working & !bit(card)) == 0),
        ]),
        Answer::Refused(3) => met(&[("fail while stopped refused 3", true)]),
        Answer::Refused(8) => met(&[
            ("fail while stopped refused 8, failed", has(control.failed, card)),
            ("fail while stopped refused 8, neither working nor failed", !has(control.failed, card)),
        ]),
        _ => Vec::new(),
    }
}
