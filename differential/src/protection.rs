//! The words of state: which ones a run must meet, and what the archive's own fails say of them.

use crate::archive::{self, code};
use crate::pair::Request;
use crate::run::Run;
use model::control::Control;
use model::image::CARDS;
use model::protection_situations::{protection_situations, PROTECTION};
use model::{Answer, Call};

/// Where a state was asked for.
pub const SINGLE: &str = "single image";
pub const IN_LIST: &str = "list";

const WORDS: [Answer; 2] = [Answer::Protected, Answer::Unprotected];

fn name(place: &str, situation: &str) -> String {
    format!("{place}: {situation}")
}

fn checked_name(word: Answer) -> String {
    format!("{word}, checked by the archive's own fails")
}

/// Classes of states that a run must meet.
pub fn classes() -> Vec<String> {
    let mut all: Vec<String> = WORDS.map(checked_name).to_vec();
    all.extend([SINGLE, IN_LIST].iter().flat_map(|place| PROTECTION.iter().map(|situation| name(place, situation))));
    all
}

/// What is special about a state, by the control part of a running store.
pub fn count(run: &mut Run, place: &str, control: &Control, call: &Call, answer: &Answer) {
    for situation in protection_situations(control, call, answer) {
        run.cases.add(&name(place, &situation));
    }
}

/// The word by what the archive's fail of each card answers on a copy of the bytes.
fn by_fails(image: &[u8]) -> Answer {
    let stopped = code(Answer::Stopped);
    let stops = |card: u8| archive::perform(&mut image.to_vec(), &Call::Fail { card }) == stopped;
    if (0..CARDS as u8).any(stops) { Answer::Unprotected } else { Answer::Protected }
}

/// The archive's answer to a state that it does not refuse is what its own fails on the same bytes call for.
pub fn check(run: &mut Run, request: &Request, image: &[u8], found: u32) {
    let Some(word) = WORDS.into_iter().find(|word| code(*word) == found) else { return };
    run.cases.add(&checked_name(word));
    let wanted = by_fails(image);
    if wanted != word {
        run.report(request, &format!("the archive answers {word}; by its own fails the store is {wanted}"));
    }
}
