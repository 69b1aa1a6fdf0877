//! What serials near their bounds make special about an answered call, by name.

use crate::calls::{Answer, Call};
use crate::control::{count, Control, HIGHEST_SERIAL};
use crate::edition::SERIALS_END;

/// Situations of single images; a list would need millions of placements for them.
pub const NEAR_BOUNDS: &[&str] = &[
    "place ok at the last serial", "place refused 20", "place refused 20 at the first such serial",
    "place refused 10, no serial either", "place refused 9, no serial either", "fail places beyond the last serial",
    "fail places at the highest serial", "fail stops at the highest serial", "table ok at the last serial",
    "table refused 20", "table refused 20 at the first such serial", "table refused 10, no serial either",
    "table refused 17, no serial either",
];

fn met(names: &[(&str, bool)]) -> Vec<String> {
    names.iter().filter(|(_, holds)| *holds).map(|(name, _)| name.to_string()).collect()
}

/// Of a call, by the control part before the call of a running store.
pub fn serial_situations(control: &Control, call: &Call, answer: &Answer) -> Vec<String> {
    match call {
        Call::Place { .. } => of_placing("place", control, answer),
        Call::Fail { .. } => of_fail(control, answer),
        _ => Vec::new(),
    }
}

/// Of a placing by table.
pub fn table_serial_situations(control: &Control, answer: &Answer) -> Vec<String> {
    of_placing("table", control, answer)
}

fn of_placing(name: &str, control: &Control, answer: &Answer) -> Vec<String> {
    let spent = control.serial >= SERIALS_END;
    let word = match answer {
        Answer::Ok if control.serial == SERIALS_END - 1 => "ok at the last serial",
        Answer::Refused(20) => "refused 20",
        Answer::Refused(10) if spent => "refused 10, no serial either",
        Answer::Refused(9) if spent => "refused 9, no serial either",
        Answer::Refused(17) if spent => "refused 17, no serial either",
        _ => return Vec::new(),
    };
    let mut found = vec![format!("{name} {word}")];
    if *answer == Answer::Refused(20) && control.serial == SERIALS_END {
        found.push(format!("{name} refused 20 at the first such serial"));
    }
    found
}

fn of_fail(control: &Control, answer: &Answer) -> Vec<String> {
    let highest = control.serial + count(control.newest().mask) as u32 == HIGHEST_SERIAL;
    let placed = matches!(answer, Answer::Placed(_));
    met(&[
        ("fail places beyond the last serial", placed && control.serial >= SERIALS_END),
        ("fail places at the highest serial", placed && highest),
        ("fail stops at the highest serial", *answer == Answer::Stopped && highest),
    ])
}
