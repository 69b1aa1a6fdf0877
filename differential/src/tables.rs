//! Placings by table, and calls in stores that have tables: which ones a run must meet.

use crate::run::Run;
use model::control::Control;
use model::image::LENGTH;
use model::table_situations::{placing_situations, table_situations, PLACINGS, WITH_TABLES};
use model::{Answer, Call};

/// Where a placing was asked for.
pub const SINGLE: &str = "single image";
pub const IN_LIST: &str = "list";

fn name(place: &str, situation: &str) -> String {
    format!("{place}: placing by table {situation}")
}

/// Classes that a run must meet.
pub fn classes() -> Vec<String> {
    let placings = [SINGLE, IN_LIST].iter().flat_map(|place| PLACINGS.iter().map(|situation| name(place, situation)));
    placings.chain(WITH_TABLES.iter().map(|situation| format!("{IN_LIST}: {situation}"))).collect()
}

/// What is special about a placing, by the image before it.
pub fn count(run: &mut Run, place: &str, before: &[u8], lines: &[u8], answer: &Answer) {
    let control = (before.len() == LENGTH).then(|| Control::read(before)).flatten();
    for situation in control.map_or(Vec::new(), |control| placing_situations(&control, lines, answer)) {
        run.cases.add(&name(place, &situation));
    }
}

/// What is special about a call of a list in a running store with tables.
pub fn count_call(run: &mut Run, control: &Control, call: &Call, answer: &Answer) {
    for situation in table_situations(control, call, answer) {
        run.cases.add(&format!("{IN_LIST}: {situation}"));
    }
}
