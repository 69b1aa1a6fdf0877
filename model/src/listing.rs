//! The listing of a command file.

use crate::calls::{perform, Answer};
use crate::commands::{read_command, COMMAND_BYTES};
use crate::image::LENGTH;
use std::fmt;
use std::fmt::Write;

impl fmt::Display for Answer {
    fn fmt(&self, f: &mut fmt::Formatter) -> fmt::Result {
        match self {
            Answer::Ok => write!(f, "ok"),
            Answer::Value(value) => write!(f, "value {value}"),
            Answer::Absent => write!(f, "absent"),
            Answer::Placed(mask) => write!(f, "placed {mask:02X}"),
            Answer::Unplaced => write!(f, "unplaced"),
            Answer::Stopped => write!(f, "stopped"),
            Answer::Copies(copies) => write!(f, "copies {copies}"),
            Answer::Retired(retired) => write!(f, "retired {retired}"),
            Answer::Protected => write!(f, "protected"),
            Answer::Unprotected => write!(f, "unprotected"),
            Answer::Load(load) => write!(f, "load {load}"),
            Answer::Written(bytes) => write!(f, "written {bytes}"),
            Answer::Refused(number) => write!(f, "refused {number}"),
        }
    }
}

/// The answer to the bytes of one command; command form comes first.
pub fn answer(image: &mut [u8], bytes: &[u8]) -> Answer {
    match read_command(bytes) {
        Some(call) => perform(image, &call),
        None => Answer::Refused(15),
    }
}

/// Number, hex digits and answer, with a newline.
pub fn line(number: usize, bytes: &[u8], answer: &Answer) -> String {
    let mut text = format!("{number} ");
    for byte in bytes {
        write!(text, "{byte:02X}").unwrap();
    }
    writeln!(text, " {answer}").unwrap();
    text
}

/// Runs a whole command file on the image, a step for each command.
pub fn run(image: &mut [u8], commands: &[u8], mut step: impl FnMut(usize, &[u8], Answer)) {
    for (at, bytes) in commands.chunks(COMMAND_BYTES).enumerate() {
        let answer = answer(image, bytes);
        step(at + 1, bytes, answer);
    }
}

/// The whole listing of a command file that goes on from an image.
pub fn listing_from(image: &[u8], commands: &[u8]) -> String {
    let mut text = String::new();
    run(&mut image.to_vec(), commands, |number, bytes, answer| text.push_str(&line(number, bytes, &answer)));
    text
}

/// The whole listing of a command file.
pub fn listing(commands: &[u8]) -> String {
    listing_from(&[0; LENGTH], commands)
}
