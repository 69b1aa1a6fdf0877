//! Answers, their codes and their words.

use crate::{Failed, Mask, Protection, Refusal};
use core::fmt;

/// What any call answers. Each answer has a code of its own: kind × 65,536 + number. Later versions may add some.
#[derive(Clone, Copy, Debug, PartialEq, Eq, Hash)]
#[non_exhaustive]
#[must_use]
pub enum Answer {
    /// Kind 0: done.
    Ok,
    /// Kind 1: the record's value.
    Value(u16),
    /// Kind 2: the record is absent.
    Absent,
    /// Kind 3: a failure added the placement with this mask.
    Placed(Mask),
    /// Kind 4: a failure added no placement.
    Unplaced,
    /// Kind 5: a failure stopped the store.
    Stopped,
    /// Kind 6: the copies that a move wrote, 0 to 2.
    Copies(u8),
    /// Kind 7: the placements that a settle retired, 0 to 3.
    Retired(u8),
    /// Kind 8: failing any one working card would not stop the store.
    Protected,
    /// Kind 9: failing some working card would stop the store.
    Unprotected,
    /// Kind 10: the records that are committed present on a card, 0 to 512.
    Load(u16),
    /// Kind 11: the moves that a list now has, 0 to [`MOST_MOVES`](crate::MOST_MOVES).
    Listed(u16),
    /// Kind 12: there is none of what was asked for.
    None,
    /// Kind 13: the number that was asked for.
    Number(u16),
    /// Kind 14: the bytes that were written.
    Written(u16),
    /// Kind 15: refused, and the image is left as found.
    Refused(Refusal),
    /// A code that is no answer's. The archive of this version gives none such.
    Unknown(u32),
}

impl From<u32> for Answer {
    /// The answer of a code.
    fn from(code: u32) -> Answer {
        match (code >> 16, code as u16) {
            (0, 0) => Answer::Ok,
            (1, value) => Answer::Value(value),
            (2, 0) => Answer::Absent,
            (3, mask @ 0..=0xFF) => Answer::Placed(Mask(mask as u8)),
            (4, 0) => Answer::Unplaced,
            (5, 0) => Answer::Stopped,
            (6, copies @ 0..=0xFF) => Answer::Copies(copies as u8),
            (7, retired @ 0..=0xFF) => Answer::Retired(retired as u8),
            (8, 0) => Answer::Protected,
            (9, 0) => Answer::Unprotected,
            (10, load) => Answer::Load(load),
            (11, moves) => Answer::Listed(moves),
            (12, 0) => Answer::None,
            (13, number) => Answer::Number(number),
            (14, bytes) => Answer::Written(bytes),
            (15, _) => Answer::Refused(Refusal::of(code)),
            _ => Answer::Unknown(code),
        }
    }
}

impl From<Failed> for Answer {
    /// What a fail did, as the answer of any call.
    fn from(failed: Failed) -> Answer {
        match failed {
            Failed::Placed(mask) => Answer::Placed(mask),
            Failed::Unplaced => Answer::Unplaced,
            Failed::Stopped => Answer::Stopped,
        }
    }
}

impl From<Protection> for Answer {
    /// The word of a state, as the answer of any call.
    fn from(word: Protection) -> Answer {
        match word {
            Protection::Protected => Answer::Protected,
            Protection::Unprotected => Answer::Unprotected,
        }
    }
}

/// The words of the listing, and of calls that have no command.
impl fmt::Display for Answer {
    fn fmt(&self, f: &mut fmt::Formatter) -> fmt::Result {
        match self {
            Answer::Ok => f.write_str("ok"),
            Answer::Value(value) => write!(f, "value {value}"),
            Answer::Absent => f.write_str("absent"),
            Answer::Placed(mask) => write!(f, "placed {mask}"),
            Answer::Unplaced => f.write_str("unplaced"),
            Answer::Stopped => f.write_str("stopped"),
            Answer::Copies(copies) => write!(f, "copies {copies}"),
            Answer::Retired(retired) => write!(f, "retired {retired}"),
            Answer::Protected => f.write_str("protected"),
            Answer::Unprotected => f.write_str("unprotected"),
            Answer::Load(load) => write!(f, "load {load}"),
            Answer::Listed(moves) => write!(f, "listed {moves}"),
            Answer::None => f.write_str("none"),
            Answer::Number(number) => write!(f, "number {number}"),
            Answer::Written(bytes) => write!(f, "written {bytes}"),
            Answer::Refused(refusal) => write!(f, "refused {}", refusal.number()),
            Answer::Unknown(code) => write!(f, "unknown {code}"),
        }
    }
}
