//! Counts of answers, refusals and situations over command files.

use crate::broken_wire_situations::{LEFT_BROKEN_WIRE, NO_BROKEN_WIRE};
use crate::calls::Answer;
use crate::commands::{read_command, COMMAND_BYTES};
use crate::image::LENGTH;
use crate::listing::answer;
use crate::protection_situations::PROTECTION;
use crate::rail_situations::{ANY_BY_RAILS, ON_RAILS, OVER_OLD};
use crate::return_situations::WHILE_STOPPED;
use crate::situations::{situations, SITUATIONS};
use crate::table_situations::WITH_TABLES;
use std::collections::{BTreeMap, BTreeSet};

pub const ANSWERS: [&str; 11] = [
    "ok", "value", "absent", "placed", "unplaced", "stopped", "copies", "retired", "protected",
    "unprotected", "load",
];

/// Each operation with its answers and refusals, by the rules. An image of the
/// program has its length, so 1 is not among them.
pub const OPERATIONS: [(&str, &[&str], &[u8]); 16] = [
    ("start", &["ok"], &[9, 15]),
    ("begin", &["ok"], &[2, 3, 4, 6, 8, 15]),
    ("get", &["value", "absent"], &[2, 3, 4, 5, 7, 15]),
    ("store", &["ok"], &[2, 3, 4, 5, 7, 15]),
    ("delete", &["ok", "absent"], &[2, 3, 4, 5, 7, 15]),
    ("commit", &["ok"], &[2, 3, 4, 5, 15]),
    ("rollback", &["ok"], &[2, 3, 4, 5, 15]),
    ("fit", &["ok"], &[2, 3, 4, 8, 15]),
    ("withdraw", &["ok"], &[2, 3, 4, 8, 14, 15]),
    ("place", &["ok"], &[2, 4, 9, 10, 15]),
    ("fail", &["placed", "unplaced", "stopped"], &[2, 3, 8, 15]),
    ("move", &["copies"], &[2, 3, 4, 8, 11, 12, 15]),
    ("settle", &["retired"], &[2, 4, 13, 15]),
    ("state", &["protected", "unprotected"], &[2, 4, 15]),
    ("load", &["load"], &[2, 3, 4, 8, 15]),
    ("unknown operation", &[], &[15]),
];

/// What each operation can be answered, as 'get value' or 'get refused 7'.
pub fn possible() -> BTreeSet<String> {
    let mut all = BTreeSet::new();
    for (operation, words, numbers) in OPERATIONS {
        all.extend(words.iter().map(|word| format!("{operation} {word}")));
        all.extend(numbers.iter().map(|number| format!("{operation} refused {number}")));
    }
    all
}

/// Answers and situations that are counted by a word of their own.
pub const SPECIAL_CASES: [(&str, &str); 5] = [
    ("four active", "placed with 3 active"),
    ("stops", "stopped"),
    ("conflicts", "refused 7"),
    ("stale fits", "fit of a failed card with old contents"),
    ("by rails", ANY_BY_RAILS),
];

/// The answer's word, or 'refused' with its number.
fn label(answer: &Answer) -> String {
    match answer {
        Answer::Refused(_) => answer.to_string(),
        _ => answer.to_string().split(' ').next().unwrap().to_string(),
    }
}

#[derive(Default)]
pub struct Tally {
    pub commands: usize,
    /// By label of an answer and by name of a situation.
    counts: BTreeMap<String, usize>,
    /// By operation and label of the answer.
    pub pairs: BTreeMap<String, usize>,
}

impl Tally {
    pub fn add(&mut self, file: &[u8]) {
        let mut image = vec![0; LENGTH];
        for bytes in file.chunks(COMMAND_BYTES) {
            let before = image.clone();
            let answer = answer(&mut image, bytes);
            self.commands += 1;
            let label = label(&answer);
            let (operation, ..) = OPERATIONS[(bytes[0] >> 4) as usize];
            *self.pairs.entry(format!("{operation} {label}")).or_insert(0) += 1;
            let special = read_command(bytes).map_or(Vec::new(), |call| situations(&before, &call, &answer));
            for name in special.into_iter().chain([label]) {
                *self.counts.entry(name).or_insert(0) += 1;
            }
        }
    }

    pub fn count(&self, name: &str) -> usize {
        self.counts.get(name).copied().unwrap_or(0)
    }

    /// Answers of the operations, and situations, that do not occur.
    pub fn missing(&self) -> Vec<String> {
        let pairs = possible().into_iter().filter(|pair| !self.pairs.contains_key(pair));
        let situations = SITUATIONS.iter().chain(ON_RAILS).chain(PROTECTION).chain(NO_BROKEN_WIRE);
        let situations = situations.chain(WHILE_STOPPED);
        let situations = situations.filter(|name| self.count(name) == 0).map(|name| name.to_string());
        pairs.chain(situations).collect()
    }

    /// What occurs and cannot by the rules.
    pub fn impossible(&self) -> Vec<String> {
        let possible = possible();
        let pairs = self.pairs.keys().filter(|pair| !possible.contains(*pair)).cloned();
        // A fail in the newest of four always stops, the third of four has a failed card, and a file has every
        // placement by rails and leaves no record with 65,535.
        let never = ["placed with 4 active", "protected with 4 active"].iter();
        let never = never.chain(OVER_OLD).chain(LEFT_BROKEN_WIRE).chain(WITH_TABLES);
        let situations = never.filter(|name| self.count(name) > 0).map(|name| name.to_string());
        pairs.chain(situations).collect()
    }
}
