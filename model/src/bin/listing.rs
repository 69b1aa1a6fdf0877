//! listing [IMAGE]: runs the commands on standard input and lists the answers on standard output. They go on from the
//! image in the file, which is converted if an earlier edition left it, or begin with zeros.

use model::converter::lengthen;
use model::edition::Edition;
use model::image::{LENGTH, OLDER_LENGTH, OLDEST_LENGTH};
use model::listing::{line, run};
use std::io::{self, BufWriter, Read, Write};
use std::process::exit;

/// The bytes of the file, or zeros without one.
fn image(words: &[String]) -> Result<Vec<u8>, String> {
    let file = match words {
        [] => return Ok(vec![0; LENGTH]),
        [file] => file,
        _ => return Err("usage: listing [IMAGE]".into()),
    };
    let image = std::fs::read(file).map_err(|error| format!("{file}: {error}"))?;
    if ![LENGTH, OLDER_LENGTH, OLDEST_LENGTH].contains(&image.len()) {
        return Err(format!("{file}: not {LENGTH}, {OLDER_LENGTH} or {OLDEST_LENGTH} bytes"));
    }
    lengthen(&image, Edition::Today).map_err(|answer| format!("{file}: no image of an earlier edition, {answer}"))
}

fn main() -> io::Result<()> {
    let words: Vec<String> = std::env::args().skip(1).collect();
    let mut image = image(&words).unwrap_or_else(|message| {
        eprintln!("{message}");
        exit(2);
    });
    let mut commands = Vec::new();
    io::stdin().lock().read_to_end(&mut commands)?;
    let mut out = BufWriter::new(io::stdout().lock());
    let mut result = Ok(());
    run(&mut image, &commands, |number, bytes, answer| {
        if result.is_ok() {
            result = out.write_all(line(number, bytes, &answer).as_bytes());
        }
    });
    result?;
    out.flush()
}
