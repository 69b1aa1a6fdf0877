//! The calls of the archive libnolpigat.a, by the model's names of calls and answers.

use model::commands::Fields;
use model::move_list::ListAnswer;
use model::queries::{Query, Told};
use model::{Answer, Call};
use nolpigat::ffi::*;

/// The code of the archive's answer. A block is a byte there.
pub fn perform(image: &mut [u8], call: &Call) -> u32 {
    let (at, length) = (image.as_mut_ptr(), image.len());
    // The pointer and the length are those of a slice that is lent for the call alone.
    unsafe {
        match *call {
            Call::Start { mask } => nolpigat_start(at, length, mask),
            Call::Begin { transaction, home } => nolpigat_begin(at, length, transaction, home),
            Call::Get { transaction, record } => nolpigat_get(at, length, transaction, record),
            Call::Store { transaction, record, value } => nolpigat_store(at, length, transaction, record, value),
            Call::Delete { transaction, record } => nolpigat_delete(at, length, transaction, record),
            Call::Commit { transaction } => nolpigat_commit(at, length, transaction),
            Call::Rollback { transaction } => nolpigat_rollback(at, length, transaction),
            Call::Fit { card } => nolpigat_fit(at, length, card),
            Call::Withdraw { card } => nolpigat_withdraw(at, length, card),
            Call::Place { mask } => nolpigat_place(at, length, mask),
            Call::Fail { card } => nolpigat_fail(at, length, card),
            Call::Move { card, block } => {
                nolpigat_move(at, length, card, block.try_into().expect("a block of one byte"))
            }
            Call::Settle => nolpigat_settle(at, length),
            Call::State => nolpigat_state(at, length),
            Call::Load { card } => nolpigat_load(at, length, card),
        }
    }
}

/// The code of the archive's answer to a command's bytes.
pub fn perform_command(image: &mut [u8], bytes: &[u8]) -> u32 {
    // Both slices are lent for the call alone, and they do not overlap.
    unsafe { nolpigat_command(image.as_mut_ptr(), image.len(), bytes.as_ptr(), bytes.len()) }
}

/// The code of the archive's answer to a placing by table.
pub fn place_by_table(image: &mut [u8], lines: &[u8]) -> u32 {
    // Both slices are lent for the call alone, and they do not overlap.
    unsafe { nolpigat_place_by_table(image.as_mut_ptr(), image.len(), lines.as_ptr(), lines.len()) }
}

/// The code of the archive's answer to a return of a card.
pub fn return_card(image: &mut [u8], card: u8) -> u32 {
    // The pointer and the length are those of a slice that is lent for the call alone.
    unsafe { nolpigat_return_card(image.as_mut_ptr(), image.len(), card) }
}

/// The code of the archive's answer to a conversion of an image of 21,024 bytes into a lent one.
pub fn convert_21024(older: &[u8], image: &mut [u8]) -> u32 {
    // Both slices are lent for the call alone, and they do not overlap.
    unsafe { nolpigat_convert_21024(older.as_ptr(), older.len(), image.as_mut_ptr(), image.len()) }
}

/// The code of the archive's answer to a conversion of an image of 21,216 bytes into a lent one.
pub fn convert_21216(older: &[u8], image: &mut [u8]) -> u32 {
    // Both slices are lent for the call alone, and they do not overlap.
    unsafe { nolpigat_convert_21216(older.as_ptr(), older.len(), image.as_mut_ptr(), image.len()) }
}

/// The code of the archive's answer to a lent list, whose entries are two bytes, card and block.
pub fn move_list(image: &[u8], list: &mut [u8]) -> u32 {
    // Both slices are lent for the call alone, and they do not overlap.
    unsafe { nolpigat_move_list(image.as_ptr(), image.len(), list.as_mut_ptr(), list.len()) }
}

/// The code of what the archive tells.
pub fn ask(image: &[u8], query: Query) -> u32 {
    let (at, length) = (image.as_ptr(), image.len());
    // The pointer and the length are those of a slice that is lent for the call alone.
    unsafe {
        match query {
            Query::Stopped => nolpigat_stopped(at, length),
            Query::PlacementCount => nolpigat_placement_count(at, length),
            Query::Placement(place) => nolpigat_placement(at, length, place),
            Query::Working => nolpigat_working(at, length),
            Query::Failed => nolpigat_failed(at, length),
            Query::Home(transaction) => nolpigat_home(at, length, transaction),
            Query::FreeTransaction => nolpigat_free_transaction(at, length),
            Query::Source { transaction, record } => nolpigat_source(at, length, transaction, record),
            Query::Holders { transaction, record } => nolpigat_holders(at, length, transaction, record),
        }
    }
}

/// The code of the archive's answer to fields that are to be written.
pub fn write_command(bytes: &mut [u8], fields: Fields) -> u32 {
    let Fields { operation, transaction, card, number, value } = fields;
    // The slice is lent for the call alone.
    unsafe { nolpigat_write_command(bytes.as_mut_ptr(), bytes.len(), operation, transaction, card, number, value) }
}

/// The code of the archive's answer to bytes that are to be read into the fields.
pub fn read_command(bytes: &[u8], fields: &mut Fields) -> u32 {
    let Fields { operation, transaction, card, number, value } = fields;
    // The slice and the five numbers are lent for the call alone, and they do not overlap.
    unsafe { nolpigat_read_command(bytes.as_ptr(), bytes.len(), operation, transaction, card, number, value) }
}

pub const REFUSED: u32 = 15;

/// Numbers of 16 bits stand below the kind of an answer.
pub const NUMBER_RANGE: u32 = 0x1_0000;

/// The code of an answer.
pub fn code(answer: Answer) -> u32 {
    let (kind, number) = match answer {
        Answer::Ok => (0, 0),
        Answer::Value(value) => (1, value),
        Answer::Absent => (2, 0),
        Answer::Placed(mask) => (3, mask.into()),
        Answer::Unplaced => (4, 0),
        Answer::Stopped => (5, 0),
        Answer::Copies(copies) => (6, copies.into()),
        Answer::Retired(retired) => (7, retired.into()),
        Answer::Protected => (8, 0),
        Answer::Unprotected => (9, 0),
        Answer::Load(load) => (10, load),
        Answer::Written(bytes) => (14, bytes),
        Answer::Refused(number) => (REFUSED, number.into()),
    };
    kind * NUMBER_RANGE + u32::from(number)
}

/// The code of an answer to a lent list.
pub fn list_code(answer: ListAnswer) -> u32 {
    match answer {
        ListAnswer::Listed(number) => 11 * NUMBER_RANGE + number as u32,
        ListAnswer::None => 12 * NUMBER_RANGE,
        ListAnswer::Refused(number) => code(Answer::Refused(number)),
    }
}

/// The code of what is told.
pub fn told_code(told: Told) -> u32 {
    match told {
        Told::Number(number) => 13 * NUMBER_RANGE + u32::from(number),
        Told::None => 12 * NUMBER_RANGE,
        Told::Refused(number) => code(Answer::Refused(number)),
    }
}
