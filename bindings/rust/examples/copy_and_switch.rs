//! copy_and_switch FOLDER: a call works on a copy of the image, which takes the image's place when the call has
//! answered; so does a file. What is cut short leaves the last whole image. docs/RECIPES.md says why.

use nolpigat::*;
use std::error::Error;
use std::fs::{rename, File};
use std::io::{self, Write};
use std::path::{Path, PathBuf};

/// In memory that keeps its contents without power, `current` is one byte of it, written last.
struct Cabinet {
    images: [Vec<u8>; 2],
    current: usize,
    folder: PathBuf,
}

impl Cabinet {
    fn new(folder: &Path) -> Cabinet {
        Cabinet { images: [vec![0; IMAGE_SIZE], vec![0; IMAGE_SIZE]], current: 0, folder: folder.to_path_buf() }
    }

    fn image(&self) -> &[u8] {
        &self.images[self.current]
    }

    /// The call of a command. A refused call changes nothing, so the copy is left unused; any other answer is the last
    /// thing that happens to the copy, and then it is the image.
    fn change(&mut self, bytes: &[u8]) -> Answer {
        let mut copy = std::mem::take(&mut self.images[1 - self.current]);
        copy.clear();
        copy.extend_from_slice(self.image());
        let answer = command(&mut copy, bytes);
        self.images[1 - self.current] = copy;
        if !matches!(answer, Answer::Refused(_) | Answer::Unknown(_)) {
            self.current = 1 - self.current;
        }
        answer
    }

    /// As `change`, of a command's fields.
    fn call(&mut self, command: Command) -> Answer {
        match command.write() {
            Ok(bytes) => self.change(&bytes),
            Err(refusal) => Answer::Refused(refusal),
        }
    }

    fn file(&self) -> PathBuf {
        self.folder.join("image")
    }

    fn new_file(&self) -> PathBuf {
        self.folder.join("image.new")
    }

    /// The image's first bytes as a new file. It is on the disk when `sync_all` has returned.
    fn write_new(&self, length: usize) -> io::Result<()> {
        let mut file = File::create(self.new_file())?;
        file.write_all(&self.image()[..length])?;
        file.sync_all()
    }

    /// A rename puts the whole new file in the place of the old one, or does not happen. The folder is synced too, so
    /// that the name is on the disk.
    fn save(&self) -> io::Result<()> {
        self.write_new(IMAGE_SIZE)?;
        rename(self.new_file(), self.file())?;
        File::open(&self.folder)?.sync_all()
    }

    /// The file's bytes go to the copy, which becomes the image if it is whole: stopped is the query that is refused
    /// for no other reason. What a panel does with a whole image is the recipe boot.
    fn load(&mut self) -> Result<bool, Refusal> {
        let bytes = std::fs::read(self.file()).unwrap_or_default(); // no file: as an empty one
        let stopped = stopped(&bytes)?;
        self.images[1 - self.current] = bytes;
        self.current = 1 - self.current;
        Ok(stopped)
    }
}

// ---- the cases, one after the other ----

fn is(name: &str, answer: Answer, expected: &str) {
    println!("{name}: {answer}");
    assert_eq!(answer.to_string(), expected);
}

/// The answer of a load.
fn loaded(result: Result<bool, Refusal>) -> Answer {
    result.map_or_else(Answer::Refused, |stopped| Answer::Number(stopped.into()))
}

/// The record's value, by a transaction that is rolled back.
fn has(cabinet: &mut Cabinet, name: &str, record: Rec, expected: &str) {
    let reader = Tran(15);
    let of = |operation| Command::new(operation).transaction(reader);
    assert_eq!(cabinet.call(of(Operation::Begin)), Answer::Ok);
    let value = get(cabinet.image(), reader, record);
    is(name, value.map_or_else(Answer::Refused, |value| value.map_or(Answer::Absent, Answer::Value)), expected);
    assert_eq!(cabinet.call(of(Operation::Rollback)), Answer::Ok);
}

fn stores(cabinet: &mut Cabinet, value: u16) {
    let of = |operation| Command::new(operation).transaction(Tran(1));
    for command in [of(Operation::Begin), of(Operation::Store).record(Rec(9)).value(value), of(Operation::Commit)] {
        assert_eq!(cabinet.call(command), Answer::Ok);
    }
}

/// The copy is half written when the power goes: the image is the one before the call.
fn cut_short_call(cabinet: &mut Cabinet) {
    cabinet.images[1 - cabinet.current][IMAGE_SIZE / 2..].fill(0xFF);
    has(cabinet, "after a call that was cut short", Rec(9), "value 1234");
}

/// The new file is half written when the power goes: the file is the one before.
fn cut_short_save(cabinet: &mut Cabinet) -> io::Result<()> {
    stores(cabinet, 5678);
    cabinet.write_new(IMAGE_SIZE / 2)?;
    is("load", loaded(cabinet.load()), "number 0");
    has(cabinet, "after a save that was cut short", Rec(9), "value 1234");
    Ok(())
}

fn main() -> Result<(), Box<dyn Error>> {
    let folder = std::env::args().nth(1).ok_or("usage: copy_and_switch FOLDER")?;
    let cabinet = &mut Cabinet::new(Path::new(&folder));
    is("load without a file", loaded(cabinet.load()), "refused 1");
    is("start", cabinet.call(Command::new(Operation::Start).mask(Mask(0xE0))), "ok");
    stores(cabinet, 1234);
    cabinet.save()?;
    is("a refused call", cabinet.call(Command::new(Operation::Fit)), "refused 8");
    is("no command", cabinet.change(&[0xF0, 0, 0, 0, 0]), "refused 15");
    cut_short_call(cabinet);
    cut_short_save(cabinet)?;
    stores(cabinet, 5678);
    cabinet.save()?;
    is("load", loaded(cabinet.load()), "number 0");
    has(cabinet, "after a save", Rec(9), "value 5678");
    Ok(())
}
