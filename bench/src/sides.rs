//! Whose calls run, and what is asked of them.

use differential::archive;
use model::commands::Fields;
use model::converter::{convert_21024, convert_21216};
use model::image::{LENGTH, OLDER_LENGTH};
use model::move_list::{move_list, Move, MOST_MOVES};
use model::returns::return_card;
use model::table::place_by_table;
use model::{perform, Call};

#[derive(Clone, Debug)]
pub enum Asked {
    Call(Call),
    /// In a list with room for every move.
    MoveList,
    /// A placing by the lines in these bytes.
    Table(Vec<u8>),
    /// A return of this card.
    Return(u8),
    /// The image is one of the editions before tables.
    Convert21024,
    /// The image is one of the edition before stamps.
    Convert21216,
}

impl Asked {
    /// The number of the call, and the next ones after all calls for the others.
    pub fn place(&self) -> u8 {
        match self {
            Asked::Call(call) => Fields::of(call).operation,
            Asked::MoveList => 15,
            Asked::Table(_) => 16,
            Asked::Return(_) => 17,
            Asked::Convert21024 => 18,
            Asked::Convert21216 => 19,
        }
    }

    /// A delivery before, with tables of plants or without them, has it too.
    pub fn is_old(&self, tables: bool) -> bool {
        matches!(self, Asked::Call(_) | Asked::MoveList) || tables && matches!(self, Asked::Table(_))
    }
}

/// The lists and the images that are lent, in the form of an archive and in that of the model.
pub struct Lent {
    archive: [u8; 2 * MOST_MOVES],
    model: [Move; MOST_MOVES],
    archive_image: Vec<u8>,
    model_image: Vec<u8>,
}

impl Default for Lent {
    fn default() -> Lent {
        Lent {
            archive: [0; 2 * MOST_MOVES],
            model: [Move::default(); MOST_MOVES],
            archive_image: vec![0xFF; LENGTH],
            model_image: vec![0xFF; LENGTH],
        }
    }
}

impl Lent {
    /// An archive and the model have left the same entries and the same image.
    pub fn same(&self) -> bool {
        let mut entries = self.archive.chunks(2).zip(&self.model);
        entries.all(|(bytes, entry)| *bytes == [entry.card, entry.block]) && self.archive_image == self.model_image
    }
}

/// All sides run through a pointer of the same type, so that what the harness adds is alike.
#[derive(Clone, Copy)]
pub struct Side {
    pub name: &'static str,
    /// Answers a code.
    pub perform: fn(&mut [u8], &mut Lent, &Asked) -> u32,
    /// The length of its images where they are shorter than those of the delivery in force.
    pub older_length: Option<fn() -> usize>,
}

impl Side {
    /// The length of its images.
    pub fn length(&self) -> usize {
        self.older_length.map_or(LENGTH, |length| length())
    }
}

/// The archive libnolpigat.a.
pub const RATTLE: Side = Side {
    name: "rattle",
    perform: |image, lent, asked| match asked {
        Asked::Call(call) => archive::perform(image, call),
        Asked::MoveList => archive::move_list(image, &mut lent.archive),
        Asked::Table(lines) => archive::place_by_table(image, lines),
        Asked::Return(card) => archive::return_card(image, *card),
        Asked::Convert21024 => archive::convert_21024(image, &mut lent.archive_image[..OLDER_LENGTH]),
        Asked::Convert21216 => archive::convert_21216(image, &mut lent.archive_image),
    },
    older_length: None,
};

pub const MODEL: Side = Side {
    name: "model",
    perform: |image, lent, asked| match asked {
        Asked::Call(call) => archive::code(perform(image, call)),
        Asked::MoveList => archive::list_code(move_list(image, &mut lent.model)),
        Asked::Table(lines) => archive::code(place_by_table(image, lines)),
        Asked::Return(card) => archive::code(return_card(image, *card)),
        Asked::Convert21024 => archive::code(convert_21024(image, &mut lent.model_image[..OLDER_LENGTH])),
        Asked::Convert21216 => archive::code(convert_21216(image, &mut lent.model_image)),
    },
    older_length: None,
};

/// The archive libbefore.a.
#[cfg(feature = "before")]
pub const BEFORE: Side = Side {
    name: "before",
    perform: |image, lent, asked| match asked {
        Asked::Call(call) => crate::before::perform(image, call),
        Asked::MoveList => crate::before::move_list(image, &mut lent.archive),
        Asked::Table(lines) => crate::before::place_by_table(image, lines),
        _ => unreachable!("the cases of this side have none"),
    },
    older_length: Some(crate::before::length),
};

pub fn named(sides: &[Side], name: &str) -> Option<Side> {
    sides.iter().copied().find(|side| side.name == name)
}
