//! What the two rails make special about an answered call, by name. Tables are not looked at.

use crate::calls::{Answer, Call};
use crate::control::Control;
use crate::image::place_of;
use crate::sites::{members, rail, sites, Placement};

/// Situations that a command file reaches: every placement is marked there.
pub const ON_RAILS: &[&str] = &[
    "get, a site by rails alone", "store, a site by rails alone", "delete, a site by rails alone",
    "move, a site by rails alone", "get, on one rail", "store, on one rail", "delete, on one rail",
    "move, on one rail", "place refused, a marked newest mask again", "settle moves a mark from place 2",
    "settle moves a mark from place 3", "settle moves a mark from place 4",
];

/// Situations that only a list from an older image reaches.
pub const OVER_OLD: &[&str] = &[
    "get with both kinds active", "store with both kinds active", "delete with both kinds active",
    "commit with both kinds active", "rollback with both kinds active", "move with both kinds active",
    "settle with both kinds active", "fail with both kinds active", "get with four active of both kinds",
    "store with four active of both kinds", "move with four active of both kinds",
    "settle with four active of both kinds", "fail with four active of both kinds",
    "get, a site by the old choice alone", "store, a site by the old choice alone",
    "delete, a site by the old choice alone", "move, a site by the old choice alone",
    "place of an old newest mask again", "settle moves a mark over an old one from place 2",
    "settle moves a mark over an old one from place 3", "settle moves a mark over an old one from place 4",
    "settle keeps an old newest, none retired", "settle keeps an old newest, others retired",
    "fail places over an old newest", "fail places over a marked newest and an old one",
    "fail places the fourth over an old one",
];

/// A get, store, delete or move of a block that has it.
pub const ANY_BY_RAILS: &str = "a site by rails alone";

/// The names, by the control part before the call of a running store.
pub fn rail_situations(control: &Control, call: &Call, answer: &Answer) -> Vec<String> {
    let mut found = of_block(control, call, answer);
    found.extend(of_kinds(control, call, answer));
    found.extend(match (*call, *answer) {
        (Call::Place { mask }, _) => of_place(control.newest(), mask, answer),
        (Call::Settle, Answer::Retired(retired)) => of_settle(control, retired),
        (Call::Fail { .. }, Answer::Placed(_)) => of_fail(control),
        _ => Vec::new(),
    });
    found
}

/// The name of a call that found or wrote something.
pub(crate) fn name(call: &Call, answer: &Answer) -> Option<&'static str> {
    match (call, answer) {
        (_, Answer::Refused(_)) => None,
        (Call::Get { .. }, Answer::Value(_)) => Some("get"),
        (Call::Store { .. }, _) => Some("store"),
        (Call::Delete { .. }, Answer::Ok) => Some("delete"),
        (Call::Commit { .. }, _) => Some("commit"),
        (Call::Rollback { .. }, _) => Some("rollback"),
        (Call::Move { .. }, _) => Some("move"),
        (Call::Settle, _) => Some("settle"),
        (Call::Fail { .. }, _) => Some("fail"),
        _ => None,
    }
}

fn has_old(control: &Control) -> bool {
    control.placements.iter().any(Placement::is_chained)
}

/// By rails and by the old choice the block's sites differ.
fn differs(mask: u8, block: usize) -> bool {
    sites(Placement::by_rails(mask), block) != sites(Placement::chained(mask), block)
}

fn on_one_rail(mask: u8) -> bool {
    let cards = members(mask);
    cards.iter().all(|card| rail(*card) == rail(cards[0]))
}

fn of_block(control: &Control, call: &Call, answer: &Answer) -> Vec<String> {
    let block = match *call {
        Call::Get { record, .. } | Call::Store { record, .. } | Call::Delete { record, .. } => place_of(record).0,
        Call::Move { block, .. } => block as usize,
        _ => return Vec::new(),
    };
    let Some(name) = name(call, answer) else { return Vec::new() };
    let any = |test: &dyn Fn(&Placement) -> bool| control.placements.iter().any(test);
    let mut found = Vec::new();
    if any(&|placement| placement.is_by_rails() && differs(placement.mask, block)) {
        found.extend([ANY_BY_RAILS.to_string(), format!("{name}, {ANY_BY_RAILS}")]);
    }
    if any(&|placement| placement.is_by_rails() && on_one_rail(placement.mask)) {
        found.push(format!("{name}, on one rail"));
    }
    if any(&|placement| placement.is_chained() && differs(placement.mask, block)) {
        found.push(format!("{name}, a site by the old choice alone"));
    }
    found
}

fn of_kinds(control: &Control, call: &Call, answer: &Answer) -> Vec<String> {
    let both = has_old(control) && control.placements.iter().any(Placement::is_by_rails);
    let Some(name) = name(call, answer).filter(|_| both) else { return Vec::new() };
    let mut found = vec![format!("{name} with both kinds active")];
    if control.placements.len() == 4 {
        found.push(format!("{name} with four active of both kinds"));
    }
    found
}

fn of_place(newest: Placement, mask: u8, answer: &Answer) -> Vec<String> {
    match answer {
        _ if mask != newest.mask || newest.is_by_table() => Vec::new(),
        Answer::Ok => vec!["place of an old newest mask again".into()],
        Answer::Refused(9) => vec!["place refused, a marked newest mask again".into()],
        _ => Vec::new(),
    }
}

fn of_settle(control: &Control, retired: u8) -> Vec<String> {
    let place = retired + 1;
    match (control.newest().is_by_rails(), has_old(control)) {
        _ if control.newest().is_by_table() => Vec::new(),
        (true, false) if retired == 0 => Vec::new(),
        (true, false) => vec![format!("settle moves a mark from place {place}")],
        (true, true) => vec![format!("settle moves a mark over an old one from place {place}")],
        (false, _) if retired == 0 => vec!["settle keeps an old newest, none retired".into()],
        (false, _) => vec!["settle keeps an old newest, others retired".into()],
    }
}

fn of_fail(control: &Control) -> Vec<String> {
    if !has_old(control) || control.newest().is_by_table() {
        return Vec::new();
    }
    let over = if control.newest().is_by_rails() { "a marked newest and an old one" } else { "an old newest" };
    let mut found = vec![format!("fail places over {over}")];
    if control.placements.len() == 3 {
        found.push("fail places the fourth over an old one".into());
    }
    found
}
