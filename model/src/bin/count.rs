//! count FILE..: counts answers, refusals and special cases over command files, for
//! each and over all, and says which answers of an operation and which situations
//! are missing. With --pairs first, also by operation and answer over all files.

use model::tally::{Tally, ANSWERS, SPECIAL_CASES};
use std::process::exit;

fn print(name: &str, tally: &Tally) {
    println!("{name}: {} commands", tally.commands);
    let words: Vec<String> =
        ANSWERS.iter().map(|word| format!("{word} {}", tally.count(word))).collect();
    println!("  {}", words.join(", "));
    let refusals: Vec<String> =
        (1..=15).map(|n| format!("{n}: {}", tally.count(&format!("refused {n}")))).collect();
    println!("  refused {}", refusals.join(", "));
    let special: Vec<String> =
        SPECIAL_CASES.iter().map(|(word, name)| format!("{word} {}", tally.count(name))).collect();
    println!("  {}", special.join(", "));
}

fn main() {
    let mut files: Vec<String> = std::env::args().skip(1).collect();
    let pairs = files.first().is_some_and(|word| word == "--pairs");
    if pairs {
        files.remove(0);
    }
    if files.is_empty() {
        eprintln!("usage: count [--pairs] FILE..");
        exit(2);
    }
    let mut all = Tally::default();
    for file in &files {
        let commands = std::fs::read(file).unwrap_or_else(|error| {
            eprintln!("{file}: {error}");
            exit(2);
        });
        let mut one = Tally::default();
        one.add(&commands);
        print(file, &one);
        all.add(&commands);
    }
    print("all", &all);
    if pairs {
        for (pair, number) in &all.pairs {
            println!("  {pair}: {number}");
        }
    }
    let missing = all.missing();
    if missing.is_empty() {
        println!("every answer of every operation and every situation occurs");
    } else {
        println!("missing: {}", missing.join(", "));
        exit(1);
    }
}
