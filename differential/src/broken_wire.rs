//! Stores of 65,535 and records that have it: which ones a run must meet.

use crate::run::Run;
use model::broken_wire_situations::{broken_wire_situations, LEFT_BROKEN_WIRE, NO_BROKEN_WIRE};
use model::control::Control;
use model::edition::BROKEN_WIRE;
use model::image::LENGTH;
use model::{Answer, Call};

/// Where a call was made.
pub const SINGLE: &str = "single image";
pub const IN_LIST: &str = "list";

/// Images of which a store of 65,535 must find each.
const IMAGES: [&str; 4] = ["a wrong length", "a broken form", "a stopped store", "a running store"];

/// Situations that occur on single images, where a transaction seldom finds its own pending state.
const ON_SINGLE_IMAGES: [&str; 14] = [
    "get of a committed 65535", "delete of a committed 65535", "store over a committed 65535",
    "copies of a committed 65535", "load with a committed 65535", "commit of a pending 65535",
    "rollback of a pending 65535", "rollback of a change to a committed 65535", "fail rolls back a pending 65535",
    "fail of a holder of a committed 65535, another is left", "store of 65535 refused",
    "store of 65535 refused, stopped too", "store of 65535 refused, not open too", "store of 65534",
];

fn name(place: &str, situation: &str) -> String {
    format!("{place}: {situation}")
}

fn store_name(image: &str) -> String {
    format!("store of 65535 on {image}")
}

/// Classes of calls that a run must meet.
pub fn classes() -> Vec<String> {
    let mut all: Vec<String> = IMAGES.map(store_name).to_vec();
    all.extend(ON_SINGLE_IMAGES.map(|situation| name(SINGLE, situation)));
    all.extend(LEFT_BROKEN_WIRE.iter().chain(NO_BROKEN_WIRE).map(|situation| name(IN_LIST, situation)));
    all
}

/// What is special about an answered call, by the image before it.
pub fn count(run: &mut Run, place: &str, before: &[u8], call: &Call, answer: &Answer) {
    if before.len() == LENGTH {
        for situation in broken_wire_situations(before, call, answer) {
            run.cases.add(&name(place, situation));
        }
    }
}

fn image_of(image: &[u8]) -> &'static str {
    if image.len() != LENGTH {
        return IMAGES[0];
    }
    match Control::read(image) {
        None => IMAGES[1],
        Some(control) if control.stopped => IMAGES[2],
        Some(_) => IMAGES[3],
    }
}

/// The image that a store of 65,535 finds.
pub fn count_image(run: &mut Run, image: &[u8], call: &Call) {
    if let Call::Store { value: BROKEN_WIRE, .. } = call {
        run.cases.add(&store_name(image_of(image)));
    }
}
