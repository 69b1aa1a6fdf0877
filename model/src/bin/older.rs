//! older EDITION KIND SEED EARLIER COMMANDS FOLDER: writes into the folder `earlier`, random commands of the edition,
//! `lines`, a table that is placed behind them where the edition has tables, `image`, what they leave of an image of
//! zeros, and `stdin`, commands that go on from it today.

use model::edition::Edition;
use model::kinds::{self, generate_older, Older};
use std::path::Path;
use std::process::exit;

/// The files and their folder. None when the words are not as the usage says.
fn request(words: &[String]) -> Option<(Older, &Path)> {
    let [edition, kind, seed, earlier, commands, folder] = words else { return None };
    let (edition, kind) = (Edition::named(edition)?, kinds::kind(kind)?);
    let (earlier, commands) = (earlier.parse().ok()?, commands.parse().ok()?);
    Some((generate_older(edition, kind, seed.parse().ok()?, earlier, commands), Path::new(folder)))
}

fn main() -> std::io::Result<()> {
    let words: Vec<String> = std::env::args().skip(1).collect();
    let Some((older, folder)) = request(&words) else {
        let (editions, kinds) = (Edition::NAMES.map(|(name, _)| name).join(" "), kinds::names());
        eprintln!("usage: older EDITION KIND SEED EARLIER COMMANDS FOLDER\neditions: {editions}\nkinds: {kinds}");
        exit(2);
    };
    std::fs::write(folder.join("earlier"), older.earlier)?;
    if !older.lines.is_empty() {
        std::fs::write(folder.join("lines"), older.lines)?;
    }
    std::fs::write(folder.join("image"), older.image)?;
    std::fs::write(folder.join("stdin"), older.commands)
}
