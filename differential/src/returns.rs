//! Returns of cards, fails while stopped and serials near their bounds: which ones a run must meet.

use crate::run::Run;
use model::control::Control;
use model::image::LENGTH;
use model::return_situations::{return_situations, stopped_situations, RETURNS, WHILE_STOPPED};
use model::serial_situations::{serial_situations, table_serial_situations, NEAR_BOUNDS};
use model::{Answer, Call};

/// Where a call was made.
pub const SINGLE: &str = "single image";
pub const IN_LIST: &str = "list";

fn name(place: &str, situation: &str) -> String {
    format!("{place}: {situation}")
}

/// Classes that a run must meet.
pub fn classes() -> Vec<String> {
    let mut all = Vec::new();
    for place in [SINGLE, IN_LIST] {
        all.extend(RETURNS.iter().chain(WHILE_STOPPED).map(|situation| name(place, situation)));
    }
    all.extend(NEAR_BOUNDS.iter().map(|situation| name(SINGLE, situation)));
    all
}

fn add(run: &mut Run, place: &str, situations: Vec<String>) {
    for situation in situations {
        run.cases.add(&name(place, &situation));
    }
}

/// What is special about a return, by the image before it.
pub fn count(run: &mut Run, place: &str, before: &[u8], card: u8, answer: &Answer) {
    add(run, place, return_situations(before, card, answer));
}

fn running(image: &[u8]) -> Option<Control> {
    let control = (image.len() == LENGTH).then(|| Control::read(image)).flatten();
    control.filter(|control| !control.stopped)
}

/// What is special about a call on a stopped store, and about one with few serials left.
pub fn count_call(run: &mut Run, place: &str, before: &[u8], call: &Call, answer: &Answer) {
    if !matches!(call, Call::Fail { .. } | Call::Place { .. }) {
        return;
    }
    add(run, place, stopped_situations(before, call, answer));
    let near = running(before).map_or(Vec::new(), |control| serial_situations(&control, call, answer));
    add(run, place, near);
}

/// What is special about a placing by table with few serials left.
pub fn count_table(run: &mut Run, place: &str, before: &[u8], answer: &Answer) {
    let near = running(before).map_or(Vec::new(), |control| table_serial_situations(&control, answer));
    add(run, place, near);
}
