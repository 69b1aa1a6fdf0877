//! generate KIND SEED COUNT: writes COUNT random commands to standard output.

use model::kinds;
use std::io::{self, Write};
use std::process::exit;

fn main() -> io::Result<()> {
    let words: Vec<String> = std::env::args().skip(1).collect();
    let parsed = match &words[..] {
        [kind, seed, commands] => kinds::kind(kind).zip(seed.parse().ok()).zip(commands.parse().ok()),
        _ => None,
    };
    let Some(((kind, seed), commands)) = parsed else {
        eprintln!("usage: generate KIND SEED COUNT\nkinds: {}", kinds::names());
        exit(2);
    };
    io::stdout().lock().write_all(&kinds::generate(kind, seed, commands))
}
