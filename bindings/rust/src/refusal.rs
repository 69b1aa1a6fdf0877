//! Why a call was refused.

use core::error::Error;
use core::fmt;

/// Why a call was refused. The image is left as found. If several reasons apply, the one with the lowest number is
/// given, except that [`Malformed`](Refusal::Malformed) comes first, and that [`Gap`](Refusal::Gap) and
/// [`Overlap`](Refusal::Overlap) come before [`Active`](Refusal::Active). Later versions may add some.
#[derive(Clone, Copy, Debug, PartialEq, Eq, Hash)]
#[non_exhaustive]
pub enum Refusal {
    /// 1: the image has another length than [`IMAGE_SIZE`](crate::IMAGE_SIZE); of a conversion, one of the two images
    /// has not the length that it names.
    Length,
    /// 2: the control form is broken; also before the first start.
    ControlForm,
    /// 3: a number is outside its range.
    Range,
    /// 4: the store has stopped. Every call but start, fail and return is refused; the queries of the control part are
    /// not.
    Stopped,
    /// 5: the transaction is not open.
    NotOpen,
    /// 6: begin of a transaction that is open.
    AlreadyOpen,
    /// 7: another transaction locks the record.
    Locked,
    /// 8: the call's condition on the card is unmet.
    Card,
    /// 9: these cards cannot be a placement.
    Placement,
    /// 10: place with three or more placements active.
    Active,
    /// 11: move of a block that the card does not hold.
    NotHeld,
    /// 12: move of a block whose copy on the card has a locked record.
    CopyLocked,
    /// 13: settle while a block still has to move.
    Unsettled,
    /// 14: withdraw of the home of an open transaction.
    Home,
    /// 15: the command is malformed.
    Malformed,
    /// 16: the list is too short for the moves.
    List,
    /// 17: a block is in no line of the table.
    Gap,
    /// 18: a block is in two lines of the table.
    Overlap,
    /// 19: return of a card whose stamp is not that of the newest placement, or that is no member of it.
    Stale,
    /// 20: no serials are left for a further placement; only a start gives new ones.
    Serials,
    /// The code of an answer that this wrapper has no name for at this call; whether the image is as found is not
    /// known. The archive of this version gives none such.
    Unknown(u32),
}

/// The refusals by their numbers, from 1 on.
const BY_NUMBER: [Refusal; 20] = [
    Refusal::Length,
    Refusal::ControlForm,
    Refusal::Range,
    Refusal::Stopped,
    Refusal::NotOpen,
    Refusal::AlreadyOpen,
    Refusal::Locked,
    Refusal::Card,
    Refusal::Placement,
    Refusal::Active,
    Refusal::NotHeld,
    Refusal::CopyLocked,
    Refusal::Unsettled,
    Refusal::Home,
    Refusal::Malformed,
    Refusal::List,
    Refusal::Gap,
    Refusal::Overlap,
    Refusal::Stale,
    Refusal::Serials,
];

/// The kind of a refusal's code.
const REFUSED: u32 = 15;

impl Refusal {
    /// The refusal of a code that is not among the answers of a call.
    pub(crate) fn of(code: u32) -> Refusal {
        let named = code.checked_sub((REFUSED << 16) + 1).and_then(|index| BY_NUMBER.get(index as usize));
        named.copied().unwrap_or(Refusal::Unknown(code))
    }

    /// The number of the refusal in the rules, 1 to 20. Of an unknown code, the number in it if it is a refusal's,
    /// else 0.
    pub fn number(self) -> u16 {
        match self {
            Refusal::Unknown(code) if code >> 16 == REFUSED => code as u16,
            Refusal::Unknown(_) => 0,
            named => BY_NUMBER.iter().zip(1..).find(|(refusal, _)| **refusal == named).map_or(0, |(_, number)| number),
        }
    }
}

/// A plain sentence, as `nolpigat_refusal_text` of the header has it.
impl fmt::Display for Refusal {
    fn fmt(&self, f: &mut fmt::Formatter) -> fmt::Result {
        f.write_str(match self {
            Refusal::Length => "an image has another length than the call takes",
            Refusal::ControlForm => "the control part is broken or the store was never started",
            Refusal::Range => "a number is outside its range",
            Refusal::Stopped => "the store has stopped",
            Refusal::NotOpen => "the transaction is not open",
            Refusal::AlreadyOpen => "the transaction is open already",
            Refusal::Locked => "the record is locked by another transaction",
            Refusal::Card => "the card is not in the state that the call needs",
            Refusal::Placement => "these cards cannot be a placement",
            Refusal::Active => "three or more placements are active",
            Refusal::NotHeld => "the card does not hold the block",
            Refusal::CopyLocked => "the card's copy of the block has a locked record",
            Refusal::Unsettled => "a block still has to move",
            Refusal::Home => "the card is the home of an open transaction",
            Refusal::Malformed => "the command is malformed",
            Refusal::List => "the list is too short for the moves",
            Refusal::Gap => "a block is in no line of the table",
            Refusal::Overlap => "a block is in two lines of the table",
            Refusal::Stale => "the card's table is stale",
            Refusal::Serials => "no serials are left: too many placements since the start",
            Refusal::Unknown(_) => "the refusal is unknown to this version",
        })
    }
}

impl Error for Refusal {}
