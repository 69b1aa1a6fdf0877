//! What is special about an answered state, by name. Tables are not looked at.

use crate::calls::{Answer, Call};
use crate::control::{count, Control};

/// The situations that are easily got wrong. With four active a store is never protected: the third has a failed card.
pub const PROTECTION: &[&str] = &[
    "protected with 1 active", "protected with 2 active", "protected with 3 active", "unprotected with 1 active",
    "unprotected with 2 active", "unprotected with 3 active", "unprotected with 4 active", "unprotected, none failed",
    "unprotected by a failed member alone", "unprotected by an older placement of two alone",
    "unprotected by a newest placement of two alone", "protected, a working card outside the placements",
    "unprotected, a working card outside the placements", "protected, a failed card outside the placements",
    "unprotected, a failed card outside the placements",
];

/// The names, by the control part of a running store.
pub fn protection_situations(control: &Control, call: &Call, answer: &Answer) -> Vec<String> {
    let (Call::State, Answer::Protected | Answer::Unprotected) = (call, answer) else { return Vec::new() };
    let mut found = vec![format!("{answer} with {} active", control.placements.len())];
    let placed = control.placements.iter().fold(0, |cards, placement| cards | placement.mask);
    if control.working & !placed != 0 {
        found.push(format!("{answer}, a working card outside the placements"));
    }
    if control.failed & !placed != 0 {
        found.push(format!("{answer}, a failed card outside the placements"));
    }
    if *answer == Answer::Unprotected {
        found.extend((control.failed == 0).then(|| "unprotected, none failed".into()));
        found.extend(only_reason(control).map(|reason| format!("unprotected by {reason} alone")));
    }
    found
}

/// The one reason why a failure would stop the store, where several placements are active.
fn only_reason(control: &Control) -> Option<&'static str> {
    let failed = control.placements.iter().any(|placement| placement.mask & control.failed != 0);
    let of_two: Vec<bool> = control.placements.iter().map(|p| count(p.mask & control.working) == 2).collect();
    let (newest, older) = of_two.split_last().filter(|(_, older)| !older.is_empty())?;
    match (failed, older.contains(&true), *newest) {
        (true, false, false) => Some("a failed member"),
        (false, true, false) => Some("an older placement of two"),
        (false, false, true) => Some("a newest placement of two"),
        _ => None,
    }
}
