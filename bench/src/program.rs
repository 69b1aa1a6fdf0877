//! The command line of each program: no words for its table, or those of a run that callgrind counts.

use std::env::args;
use std::process::exit;

/// `table` prints; `count` performs the calls of a case, by its number, on so many copies, by the side of this name.
pub fn main(name: &str, table: fn(), count: fn(usize, &str, usize) -> Option<()>) {
    let words: Vec<String> = args().skip(1).collect();
    if words.is_empty() {
        table();
    } else if asked(&words).and_then(|(at, side, copies)| count(at, side, copies)).is_none() {
        eprintln!("usage: {name} [count CASE SIDE COPIES]");
        exit(2);
    }
}

fn asked(words: &[String]) -> Option<(usize, &str, usize)> {
    match words {
        [mode, at, side, copies] if mode == "count" => Some((at.parse().ok()?, side, copies.parse().ok()?)),
        _ => None,
    }
}
