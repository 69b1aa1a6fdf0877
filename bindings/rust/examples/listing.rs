//! listing [IMAGE]: runs the commands on standard input and prints their listing. They go on from the image in
//! the file, or begin with zeros. An image that an earlier version left is converted first.

use nolpigat::{command, convert, COMMAND_SIZE, IMAGE_SIZE, VERSION_1_IMAGE_SIZE, VERSION_2_IMAGE_SIZE};
use std::io::{self, BufWriter, Read, Write};
use std::process::exit;

/// The image in the file that the words name, or zeros. None if it is neither one of this version nor an older one.
fn image(words: &[String]) -> io::Result<Option<Vec<u8>>> {
    Ok(match words {
        [] => Some(vec![0; IMAGE_SIZE]),
        [file] => of_this_version(std::fs::read(file)?),
        _ => None,
    })
}

fn of_this_version(bytes: Vec<u8>) -> Option<Vec<u8>> {
    if bytes.len() == IMAGE_SIZE {
        return Some(bytes);
    }
    let mut image = vec![0; IMAGE_SIZE];
    convert(&bytes, &mut image).ok().map(|_| image)
}

fn main() -> io::Result<()> {
    let words: Vec<String> = std::env::args().skip(1).collect();
    let Some(mut image) = image(&words)? else {
        let older = format!("{VERSION_2_IMAGE_SIZE} or {VERSION_1_IMAGE_SIZE}");
        eprintln!("usage: listing [IMAGE]; an image has {IMAGE_SIZE} bytes, an older one {older}");
        exit(2);
    };
    let mut commands = Vec::new();
    io::stdin().read_to_end(&mut commands)?;
    let mut out = BufWriter::new(io::stdout().lock());
    // The last chunk may have one to four bytes, which the store refuses with 15.
    for (index, bytes) in commands.chunks(COMMAND_SIZE).enumerate() {
        write!(out, "{} ", index + 1)?;
        for byte in bytes {
            write!(out, "{byte:02X}")?;
        }
        writeln!(out, " {}", command(&mut image, bytes))?;
    }
    out.flush()
}
