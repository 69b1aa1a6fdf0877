//! Counts of what a run met, and what it had to meet and did not.

use crate::archive::{NUMBER_RANGE, REFUSED};
use crate::pair::Request;
use model::tally::{possible, ANSWERS, OPERATIONS};
use model::Call;
use std::collections::{BTreeMap, BTreeSet};

/// The fifteen calls, a command's bytes, a placing by table and a return.
pub const ENTRIES: usize = 18;
pub const COMMAND_ENTRY: usize = 15;
pub const TABLE_ENTRY: usize = 16;
pub const RETURN_ENTRY: usize = 17;

/// The calls that have no command, by their entries from `TABLE_ENTRY` on: what each can be refused with; else ok.
const WITHOUT_COMMAND: [(&str, &[u8]); 2] =
    [("place by table", &[1, 2, 3, 4, 9, 10, 17, 18, 20]), ("return", &[1, 2, 3, 8, 19])];

/// Kinds of answers, then refusals by number.
const KINDS: u32 = 16;
const HIGHEST_REFUSAL: u32 = 21;
const ANSWER_CLASSES: usize = (KINDS + HIGHEST_REFUSAL) as usize + 1;

/// The name of an entry.
fn entry_name(entry: usize) -> &'static str {
    match entry.checked_sub(TABLE_ENTRY) {
        Some(at) => WITHOUT_COMMAND[at].0,
        None => OPERATIONS[entry].0,
    }
}

pub type Entries = [usize; ENTRIES];

pub struct Cases {
    answers: [[usize; ANSWER_CLASSES]; ENTRIES],
    images: BTreeMap<String, Entries>,
    /// By call and by place of the argument.
    byte_values: [[[bool; 256]; 2]; ENTRIES],
    named: BTreeMap<String, usize>,
}

impl Default for Cases {
    fn default() -> Cases {
        Cases {
            answers: [[0; ANSWER_CLASSES]; ENTRIES],
            images: BTreeMap::new(),
            byte_values: [[[false; 256]; 2]; ENTRIES],
            named: BTreeMap::new(),
        }
    }
}

/// The arguments of a call that are one byte wide.
fn byte_arguments(call: &Call) -> Vec<u16> {
    match *call {
        Call::Start { mask } | Call::Place { mask } => vec![mask.into()],
        Call::Begin { transaction, home } => vec![transaction.into(), home.into()],
        Call::Fit { card } | Call::Withdraw { card } | Call::Fail { card } | Call::Load { card } => vec![card.into()],
        Call::Move { card, block } => vec![card.into(), block],
        Call::Settle | Call::State => vec![],
        _ => call.used_transaction().map(u16::from).into_iter().collect(),
    }
}

fn answer_class(code: u32) -> usize {
    let (kind, number) = (code / NUMBER_RANGE, code % NUMBER_RANGE);
    (if kind == REFUSED { KINDS + number.min(HIGHEST_REFUSAL) } else { kind.min(KINDS - 1) }) as usize
}

fn answer_name(class: usize) -> String {
    match class.checked_sub(KINDS as usize) {
        Some(number) => format!("refused {number}"),
        None => ANSWERS.get(class).map_or_else(|| format!("kind {class}"), |word| word.to_string()),
    }
}

impl Cases {
    pub fn add_answer(&mut self, request: &Request, code: u32) {
        let operation = request.operation();
        self.answers[operation][answer_class(code)] += 1;
        let arguments = match request {
            Request::Call(call) => byte_arguments(call),
            Request::Return(card) => vec![(*card).into()],
            _ => vec![],
        };
        for (place, value) in arguments.into_iter().enumerate() {
            self.byte_values[operation][place][value as usize] = true;
        }
    }

    /// Calls on an image of these classes.
    pub fn add_image(&mut self, classes: &[String], calls: &Entries) {
        for class in classes {
            let sum = self.images.entry(class.clone()).or_insert([0; ENTRIES]);
            for (entry, number) in sum.iter_mut().zip(calls) {
                *entry += number;
            }
        }
    }

    pub fn add(&mut self, name: &str) {
        match self.named.get_mut(name) {
            Some(number) => *number += 1,
            None => {
                self.named.insert(name.to_string(), 1);
            }
        }
    }

    fn answers(&self) -> BTreeSet<String> {
        let mut found = BTreeSet::new();
        for (entry, numbers) in self.answers.iter().enumerate() {
            let met = (0..ANSWER_CLASSES).filter(|class| numbers[*class] > 0);
            found.extend(met.map(|class| format!("{} {}", entry_name(entry), answer_name(class))));
        }
        found
    }

    /// Classes that never occurred, and answers that the rules do not have.
    pub fn faults(&self, images: &[String], named: &[String]) -> Vec<String> {
        let mut wanted = possible();
        wanted.extend(OPERATIONS[..COMMAND_ENTRY].iter().map(|(operation, ..)| format!("{operation} refused 1")));
        // No command file has so many placements.
        wanted.insert("place refused 20".into());
        for (name, refusals) in WITHOUT_COMMAND {
            wanted.insert(format!("{name} ok"));
            wanted.extend(refusals.iter().map(|number| format!("{name} refused {number}")));
        }
        let found = self.answers();
        let mut faults: Vec<String> = wanted.difference(&found).map(|name| format!("no {name}")).collect();
        faults.extend(found.difference(&wanted).map(|name| format!("impossible: {name}")));
        for class in images {
            let calls = self.images.get(class).unwrap_or(&[0; ENTRIES]);
            if calls.contains(&0) {
                faults.push(format!("no image '{class}' for some entry: {calls:?}"));
            }
        }
        faults.extend(self.missing(named));
        faults.extend(self.byte_faults());
        faults
    }

    /// Names that never occurred.
    pub fn missing(&self, named: &[String]) -> Vec<String> {
        named.iter().filter(|name| !self.named.contains_key(*name)).map(|name| format!("no {name}")).collect()
    }

    /// Arguments of one byte that did not take all 256 values.
    fn byte_faults(&self) -> Vec<String> {
        let mut faults = Vec::new();
        let one = |operation: usize| Call::of(operation as u8, &Default::default()).expect("operations 0 to 14");
        let places = |entry: usize| if entry < COMMAND_ENTRY { byte_arguments(&one(entry)).len() } else { 1 };
        for entry in (0..COMMAND_ENTRY).chain([RETURN_ENTRY]) {
            for place in 0..places(entry) {
                let missing = self.byte_values[entry][place].iter().filter(|met| !**met).count();
                if missing > 0 {
                    let name = entry_name(entry);
                    faults.push(format!("{missing} byte values of argument {} of {name} missing", place + 1));
                }
            }
        }
        faults
    }

    pub fn print(&self) {
        for (entry, numbers) in self.answers.iter().enumerate() {
            let met = (0..ANSWER_CLASSES).filter(|class| numbers[*class] > 0);
            let words: Vec<String> = met.map(|class| format!("{} {}", answer_name(class), numbers[class])).collect();
            println!("{}: {}", entry_name(entry), words.join(", "));
        }
        for (class, calls) in &self.images {
            println!("image, {class}: {} calls", calls.iter().sum::<usize>());
        }
        self.print_named();
    }

    pub fn print_named(&self) {
        for (name, number) in &self.named {
            println!("{name}: {number}");
        }
    }
}
