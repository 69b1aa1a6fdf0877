//! Queries. They only read and have no commands. Those of the control part are not refused after a stop.

use crate::{ffi, taken, Answer, Card, Mask, Rec, Refusal, Tran};

/// So many placements are active at most.
pub const MOST_PLACEMENTS: u8 = 4;

/// The code of a query about an image and further numbers.
macro_rules! ask {
    ($function:ident($image:expr $(, $argument:expr)*)) => {
        // SAFETY: pointer and length are those of one slice, borrowed for the whole call. The function only reads it,
        // accepts every length and contents and keeps no pointer.
        unsafe { ffi::$function($image.as_ptr(), $image.len() $(, $argument)*) }
    };
}

/// The number of an answer, as a byte.
fn number(answer: Answer) -> Option<u8> {
    match answer {
        Answer::Number(number) => number.try_into().ok(),
        _ => None,
    }
}

/// The number of an answer that may also be that there is none.
fn number_if_any(answer: Answer) -> Option<Option<u8>> {
    match answer {
        Answer::None => Some(None),
        other => number(other).map(Some),
    }
}

/// Whether the store has stopped.
///
/// Refused: [`Length`](Refusal::Length), [`ControlForm`](Refusal::ControlForm).
pub fn stopped(image: &[u8]) -> Result<bool, Refusal> {
    taken(ask!(nolpigat_stopped(image)), number).map(|number| number != 0)
}

/// How many placements are active, 1 to [`MOST_PLACEMENTS`].
///
/// Refused: as [`stopped`].
pub fn placement_count(image: &[u8]) -> Result<u8, Refusal> {
    taken(ask!(nolpigat_placement_count(image)), number)
}

/// The mask of an active placement, or none if no more than `index` are active. Index 0 is the oldest, the count less
/// one the newest.
///
/// Refused: as [`stopped`]; [`Range`](Refusal::Range) if the index is above 3.
pub fn placement(image: &[u8], index: u8) -> Result<Option<Mask>, Refusal> {
    taken(ask!(nolpigat_placement(image, index)), number_if_any).map(|mask| mask.map(Mask))
}

/// The cards that work, also those in no placement.
///
/// Refused: as [`stopped`].
pub fn working(image: &[u8]) -> Result<Mask, Refusal> {
    taken(ask!(nolpigat_working(image)), number).map(Mask)
}

/// The cards that are marked failed, from their [`fail`](crate::fail) until a [`fit`](crate::fit).
///
/// Refused: as [`stopped`].
pub fn failed(image: &[u8]) -> Result<Mask, Refusal> {
    taken(ask!(nolpigat_failed(image)), number).map(Mask)
}

/// The home card of an open transaction, or none if it is not open.
///
/// Refused: as [`stopped`]; [`Range`](Refusal::Range).
pub fn home(image: &[u8], transaction: Tran) -> Result<Option<Card>, Refusal> {
    taken(ask!(nolpigat_home(image, transaction.0)), number_if_any).map(|card| card.map(Card))
}

/// The lowest transaction that is not open, or none if all fifteen are.
///
/// Refused: as [`stopped`].
pub fn free_transaction(image: &[u8]) -> Result<Option<Tran>, Refusal> {
    taken(ask!(nolpigat_free_transaction(image)), number).map(|number| (number != 0).then_some(Tran(number)))
}

/// The card that a [`get`](crate::get) with the same arguments reads, or none if no card holds the record's block.
///
/// Refused: exactly as that get, after a stop too.
pub fn source(image: &[u8], transaction: Tran, record: Rec) -> Result<Option<Card>, Refusal> {
    taken(ask!(nolpigat_source(image, transaction.0, record.0)), number_if_any).map(|card| card.map(Card))
}

/// On how many cards the record's block is held.
///
/// Refused: exactly as a [`get`](crate::get) with the same arguments, after a stop too.
pub fn holders(image: &[u8], transaction: Tran, record: Rec) -> Result<u8, Refusal> {
    taken(ask!(nolpigat_holders(image, transaction.0, record.0)), number)
}
