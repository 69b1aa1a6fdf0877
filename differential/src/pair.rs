//! Two images of the same bytes, one lent to the archive and one to the model.

use crate::archive::{self, NUMBER_RANGE};
use crate::cases::{RETURN_ENTRY, TABLE_ENTRY};
use model::commands::Fields;
use model::move_list::{move_list, ListAnswer, Move};
use model::returns::return_card;
use model::table::place_by_table;
use model::{listing, perform, Answer, Call};
use std::fmt;
use std::ops::Range;

/// Bytes on both sides of an image, which no call may change.
pub const GUARD: usize = 64;
const GUARD_BYTE: u8 = 0xA5;

/// The places at which an image begins, so that every alignment occurs.
pub const ALIGNMENTS: usize = 16;

/// What is asked of both.
#[derive(Clone, Copy, Debug)]
pub enum Request<'a> {
    Call(Call),
    Command(&'a [u8]),
    /// A placing by the lines in these bytes.
    Table(&'a [u8]),
    /// A return of this card.
    Return(u8),
}

impl Request<'_> {
    /// The number of the operation; 15 for bytes that name none, and further ones for calls without a command.
    pub fn operation(&self) -> usize {
        match self {
            Request::Call(call) => Fields::of(call).operation as usize,
            Request::Command(bytes) => bytes.first().map_or(15, |byte| byte >> 4) as usize,
            Request::Table(_) => TABLE_ENTRY,
            Request::Return(_) => RETURN_ENTRY,
        }
    }
}

/// A byte in which the two differ.
#[derive(Clone, Copy, Debug)]
pub struct DifferentByte {
    /// From the first byte that is lent; below 0 or beyond the length was not lent.
    pub at: isize,
    pub archive: u8,
    pub model: u8,
}

impl fmt::Display for DifferentByte {
    fn fmt(&self, f: &mut fmt::Formatter) -> fmt::Result {
        write!(f, "byte {} is {:02X} by the archive and {:02X} by the model", self.at, self.archive, self.model)
    }
}

/// The first byte in which the archive's bytes differ from the model's; `lent` is where the lent ones begin.
pub fn first_difference(archive: &[u8], model: &[u8], lent: usize) -> Option<DifferentByte> {
    if archive == model {
        return None;
    }
    let at = archive.iter().zip(model).position(|(archive, model)| archive != model)?;
    Some(DifferentByte { at: at as isize - lent as isize, archive: archive[at], model: model[at] })
}

#[derive(Clone, Copy, Debug)]
pub struct Outcome<A = Answer> {
    /// The archive's answer.
    pub code: u32,
    /// The model's answer.
    pub answer: A,
    /// The code of the model's answer.
    pub wanted: u32,
    pub byte: Option<DifferentByte>,
}

impl<A> Outcome<A> {
    pub fn same(&self) -> bool {
        self.code == self.wanted && self.byte.is_none()
    }
}

impl<A: fmt::Display> fmt::Display for Outcome<A> {
    fn fmt(&self, f: &mut fmt::Formatter) -> fmt::Result {
        let (kind, number) = (self.code / NUMBER_RANGE, self.code % NUMBER_RANGE);
        write!(f, "the archive answers kind {kind} number {number}, the model {}; ", self.answer)?;
        match &self.byte {
            Some(byte) => write!(f, "{byte}"),
            None => write!(f, "no byte differs"),
        }
    }
}

/// The archive's answer to lines that begin at this alignment. It leaves them as lent.
fn place_lent(image: &mut [u8], lines: &[u8], alignment: usize) -> u32 {
    let mut lent = vec![GUARD_BYTE; alignment];
    lent.extend(lines);
    let code = archive::place_by_table(image, &lent[alignment..]);
    assert_eq!(lent[alignment..], *lines, "the archive changed the lines");
    code
}

#[derive(Default)]
pub struct Pair {
    archive: Vec<u8>,
    model: Vec<u8>,
    image: Range<usize>,
}

impl Pair {
    /// Both images take these bytes, and begin at this alignment.
    pub fn load(&mut self, image: &[u8], alignment: usize) {
        let first = GUARD + alignment;
        self.image = first..first + image.len();
        let whole = self.image.end + GUARD;
        for side in [&mut self.archive, &mut self.model] {
            side.resize(whole, GUARD_BYTE);
            side[..first].fill(GUARD_BYTE);
            side[first..first + image.len()].copy_from_slice(image);
            side[first + image.len()..].fill(GUARD_BYTE);
        }
    }

    /// The model's image.
    pub fn image(&self) -> &[u8] {
        &self.model[self.image.clone()]
    }

    pub fn archive_image(&self) -> &[u8] {
        &self.archive[self.image.clone()]
    }

    /// Changes the model's image and copies the bytes of the ranges to the archive's.
    pub fn change(&mut self, ranges: &[Range<usize>], change: impl FnOnce(&mut [u8])) {
        change(&mut self.model[self.image.clone()]);
        for range in ranges {
            let both = self.image.start + range.start..self.image.start + range.end;
            self.archive[both.clone()].copy_from_slice(&self.model[both]);
        }
    }

    pub fn perform(&mut self, request: &Request) -> Outcome {
        let archive = &mut self.archive[self.image.clone()];
        let model = &mut self.model[self.image.clone()];
        let (code, answer) = match request {
            Request::Call(call) => (archive::perform(archive, call), perform(model, call)),
            Request::Command(bytes) => (archive::perform_command(archive, bytes), listing::answer(model, bytes)),
            Request::Table(lines) => {
                (place_lent(archive, lines, self.image.start % ALIGNMENTS), place_by_table(model, lines))
            }
            Request::Return(card) => (archive::return_card(archive, *card), return_card(model, *card)),
        };
        Outcome { code, answer, wanted: archive::code(answer), byte: self.different_byte() }
    }

    /// The lists are lent to the archive and to the model.
    pub fn move_list(&mut self, archive_list: &mut [u8], model_list: &mut [Move]) -> Outcome<ListAnswer> {
        let code = archive::move_list(&self.archive[self.image.clone()], archive_list);
        let answer = move_list(self.image(), model_list);
        Outcome { code, answer, wanted: archive::list_code(answer), byte: self.different_byte() }
    }

    fn different_byte(&mut self) -> Option<DifferentByte> {
        let different = first_difference(&self.archive, &self.model, self.image.start);
        if different.is_some() {
            // The calls after this one are compared as if this one had not differed.
            self.archive.copy_from_slice(&self.model);
        }
        different
    }
}
