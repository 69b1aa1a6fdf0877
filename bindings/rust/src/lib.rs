//! A replicated record store in an image of bytes that the caller lends.
//!
//! The store keeps 512 records of 16 bits, each on two of up to eight cards. Records are read and written in
//! transactions; cards can fail, be fitted or be withdrawn while the store goes on. For every image length and
//! contents, answer and image after a call are proved to be those of the rules (docs/RULES.md). This wrapper is not
//! part of the proof: it turns slices and codes into the archive's arguments and answers.
//!
//! ```
//! use nolpigat::{begin, commit, get, start, store, Card, Mask, Rec, Refusal, Tran, IMAGE_SIZE};
//!
//! fn main() -> Result<(), Refusal> {
//!     let mut image = [0; IMAGE_SIZE];
//!     start(&mut image, Mask(0xE0))?; // cards 0, 1 and 2
//!     begin(&mut image, Tran(1), Card(0))?; // home card 0
//!     store(&mut image, Tran(1), Rec(9), 4660)?;
//!     commit(&mut image, Tran(1))?;
//!     begin(&mut image, Tran(2), Card(1))?;
//!     assert_eq!(get(&image, Tran(2), Rec(9))?, Some(4660));
//!     Ok(())
//! }
//! ```
//!
//! [`Transaction`] does the same and rolls back what is not committed.
//!
//! Cards 0 to 3 hang on one supply rail and 4 to 7 on the other. A block's two cards are on both rails if the placement
//! has cards on both. The placements in an image that was written before this rule keep their sites, and those of
//! [`place_by_table`] have the cards of a plant's table; a [`place`] of the same mask puts either on two rails.
//!
//! Where several cards fail at once, as with their supply, the store stops and keeps what was committed; [`return_card`]
//! takes the cards back, and the store runs again as soon as it can.
//!
//! An image that versions before 3.0 left is shorter; [`convert`] makes one of this length from it.
//!
//! Cards are 0 to 7, blocks 0 to 63, records 0 to 511, transactions 1 to 15, values to store 0 to 65,534; record r lies
//! in block r / 8. A mask is a set of cards in a byte, card 0 its highest bit. No call panics: what cannot be done is
//! refused with a [`Refusal`]. [`Length`](Refusal::Length), [`ControlForm`](Refusal::ControlForm) and
//! [`Stopped`](Refusal::Stopped) come from every call but [`start`], the last not from [`fail`] and [`return_card`], and
//! [`Range`](Refusal::Range) from every call with a number other than a mask; each function names its others. The
//! queries say which they have.
//!
//! The package needs neither std nor an allocator.

#![no_std]
#![deny(missing_docs)]

mod answer;
mod calls;
mod commands;
#[allow(missing_docs)]
pub mod ffi;
mod namings;
mod older;
mod queries;
mod refusal;
mod returns;
mod tables;
mod transaction;

pub use answer::Answer;
pub use calls::{
    begin, command, commit, delete, fail, fit, get, load, move_block, move_list, place, rollback, settle, start, state,
    store, withdraw, Deletion, Failed, Move, Moves, Protection,
};
pub use commands::{Command, Operation};
pub use namings::{Block, Card, Mask, Rec, Tran};
pub use older::{convert, convert_21024, convert_21216};
pub use queries::{
    failed, free_transaction, holders, home, placement, placement_count, source, stopped, working, MOST_PLACEMENTS,
};
pub use refusal::Refusal;
pub use returns::return_card;
pub use tables::{place_by_table, Line};
pub use transaction::Transaction;

/// The length of an image in bytes.
pub const IMAGE_SIZE: usize = 21_248;

/// The length of an image that versions 2.x left, in bytes.
pub const VERSION_2_IMAGE_SIZE: usize = 21_216;

/// The length of an image that versions 1.x left, in bytes.
pub const VERSION_1_IMAGE_SIZE: usize = 21_024;

/// The length of a command in bytes.
pub const COMMAND_SIZE: usize = 5;

/// A list with room for so many moves is never too short.
pub const MOST_MOVES: usize = 512;

/// The most lines of a table: one for each block.
pub const MOST_LINES: usize = 64;

/// What a function makes of its code: what `take` gives for the answers that it has, else the refusal.
fn taken<T>(code: u32, take: impl FnOnce(Answer) -> Option<T>) -> Result<T, Refusal> {
    take(Answer::from(code)).ok_or(Refusal::of(code))
}

/// As [`taken`], of a function whose one answer is ok.
fn done(code: u32) -> Result<(), Refusal> {
    taken(code, |answer| (answer == Answer::Ok).then_some(()))
}
