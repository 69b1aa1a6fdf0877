//! The calls on an image, a command's bytes and the move list.

use crate::{done, ffi, taken, Answer, Block, Card, Mask, Rec, Refusal, Tran};
use core::mem::size_of_val;

/// The code of a function of the archive.
macro_rules! ask {
    ($function:ident($($argument:expr),+)) => {
        // SAFETY: each pointer and its length are those of one slice, borrowed for the whole call: shared where the
        // function only reads, else exclusive. The function accepts every length and contents and keeps no pointer.
        unsafe { ffi::$function($($argument),+) }
    };
}

/// All zero, then the mask's cards work and are the one placement. Older contents are not examined: what the store
/// kept is gone.
///
/// Refused: [`Length`](Refusal::Length); [`Placement`](Refusal::Placement) if the mask has under two members.
pub fn start(image: &mut [u8], mask: Mask) -> Result<(), Refusal> {
    done(ask!(nolpigat_start(image.as_mut_ptr(), image.len(), mask.0)))
}

/// The transaction opens, with its home card in the newest placement.
///
/// Refused: [`AlreadyOpen`](Refusal::AlreadyOpen) if it is open; [`Card`](Refusal::Card) if the home is not in the
/// newest placement.
pub fn begin(image: &mut [u8], transaction: Tran, home: Card) -> Result<(), Refusal> {
    done(ask!(nolpigat_begin(image.as_mut_ptr(), image.len(), transaction.0, home.0)))
}

/// The record's pending state if the first holder's slot is locked by this transaction, else the committed one: its
/// value, or none where it is absent. With no holder it is absent. Takes no lock.
///
/// Refused: [`NotOpen`](Refusal::NotOpen) if the transaction is not open; [`Locked`](Refusal::Locked) if some holder's
/// slot is locked by another.
pub fn get(image: &[u8], transaction: Tran, record: Rec) -> Result<Option<u16>, Refusal> {
    let code = ask!(nolpigat_get(image.as_ptr(), image.len(), transaction.0, record.0));
    taken(code, |answer| match answer {
        Answer::Value(value) => Some(Some(value)),
        Answer::Absent => Some(None),
        _ => None,
    })
}

/// Every holder's slot is locked and given the pending value. With no holder, both sites of the newest placement get
/// the block. The value is 0 to 65,534. Records that have 65,535 from before, committed or pending, are read and kept
/// as others are.
///
/// Refused: as [`get`], and [`Range`](Refusal::Range) also for the value 65,535.
pub fn store(image: &mut [u8], transaction: Tran, record: Rec, value: u16) -> Result<(), Refusal> {
    done(ask!(nolpigat_store(image.as_mut_ptr(), image.len(), transaction.0, record.0, value)))
}

/// What a [`delete`] did.
#[derive(Clone, Copy, Debug, PartialEq, Eq, Hash)]
pub enum Deletion {
    /// The record is locked, with a pending absence.
    Pending,
    /// It was absent already; nothing changed.
    Absent,
}

/// Every holder's slot is locked with pending absent. Where [`get`] would say absent, nothing changes.
///
/// Refused: as [`get`].
pub fn delete(image: &mut [u8], transaction: Tran, record: Rec) -> Result<Deletion, Refusal> {
    let code = ask!(nolpigat_delete(image.as_mut_ptr(), image.len(), transaction.0, record.0));
    taken(code, |answer| match answer {
        Answer::Ok => Some(Deletion::Pending),
        Answer::Absent => Some(Deletion::Absent),
        _ => None,
    })
}

/// Slots locked by the transaction, on all working cards, take the pending state and are unlocked. The transaction
/// closes.
///
/// Refused: [`NotOpen`](Refusal::NotOpen) if the transaction is not open.
pub fn commit(image: &mut [u8], transaction: Tran) -> Result<(), Refusal> {
    done(ask!(nolpigat_commit(image.as_mut_ptr(), image.len(), transaction.0)))
}

/// Slots locked by the transaction, on all working cards, drop the pending state and are unlocked. The transaction
/// closes.
///
/// Refused: as [`commit`].
pub fn rollback(image: &mut [u8], transaction: Tran) -> Result<(), Refusal> {
    done(ask!(nolpigat_rollback(image.as_mut_ptr(), image.len(), transaction.0)))
}

/// The card's table is zeroed, a failed mark is cleared and it works.
///
/// Refused: [`Card`](Refusal::Card) if the card works or is in an active placement.
pub fn fit(image: &mut [u8], card: Card) -> Result<(), Refusal> {
    done(ask!(nolpigat_fit(image.as_mut_ptr(), image.len(), card.0)))
}

/// The card's table is zeroed; it no longer works.
///
/// Refused: [`Card`](Refusal::Card) if the card does not work or is in an active placement; [`Home`](Refusal::Home) if
/// an open transaction has its home there.
pub fn withdraw(image: &mut [u8], card: Card) -> Result<(), Refusal> {
    done(ask!(nolpigat_withdraw(image.as_mut_ptr(), image.len(), card.0)))
}

/// The mask becomes the newest placement, with sites on two supply rails. The newest mask again is taken where that
/// placement is by a table or older than the choice by rails.
///
/// Refused: [`Placement`](Refusal::Placement) if the mask has under two members or one that does not work, or is the
/// newest again and that one is by rails; [`Active`](Refusal::Active) if three or more placements are active;
/// [`Serials`](Refusal::Serials) after some 16,777,000 placements since the start.
pub fn place(image: &mut [u8], mask: Mask) -> Result<(), Refusal> {
    done(ask!(nolpigat_place(image.as_mut_ptr(), image.len(), mask.0)))
}

/// What a [`fail`] did.
#[derive(Clone, Copy, Debug, PartialEq, Eq, Hash)]
#[must_use]
pub enum Failed {
    /// The store goes on, and the placement with this mask was added.
    Placed(Mask),
    /// The store goes on; the card was not in the newest placement, and none was added.
    Unplaced,
    /// The store has stopped, or had stopped before.
    Stopped,
}

/// The card no longer works and is marked failed; its table is not read again before a [`fit`] or a
/// [`return_card`](crate::return_card). If some active placement now has two failed or fewer than two working members,
/// every open transaction is rolled back and the store stops. Otherwise transactions begun there are rolled back, and
/// if the card was in the newest placement, one without it is added, with sites on two supply rails, also after a
/// table. While the store is stopped, the card is only marked.
///
/// Refused: [`Card`](Refusal::Card) if the card does not work. It is never refused with [`Stopped`](Refusal::Stopped).
pub fn fail(image: &mut [u8], card: Card) -> Result<Failed, Refusal> {
    let code = ask!(nolpigat_fail(image.as_mut_ptr(), image.len(), card.0));
    taken(code, |answer| match answer {
        Answer::Placed(mask) => Some(Failed::Placed(mask)),
        Answer::Unplaced => Some(Failed::Unplaced),
        Answer::Stopped => Some(Failed::Stopped),
        _ => None,
    })
}

/// Each site of the newest placement that lacks the block gets a copy of the card's; one that has it keeps its own.
/// The card drops the block unless it is a site. The copies that were written are counted.
///
/// Refused: [`Card`](Refusal::Card) if the card does not work; [`NotHeld`](Refusal::NotHeld) if it does not hold the
/// block; [`CopyLocked`](Refusal::CopyLocked) if its copy has a locked slot.
pub fn move_block(image: &mut [u8], card: Card, block: Block) -> Result<u8, Refusal> {
    let code = ask!(nolpigat_move(image.as_mut_ptr(), image.len(), card.0, block.0));
    taken(code, |answer| if let Answer::Copies(copies) = answer { Some(copies) } else { None })
}

/// If every block held on a working card is held by both its newest sites and by no other working card, only the
/// newest placement remains. The placements that were retired are counted.
///
/// Refused: [`Unsettled`](Refusal::Unsettled) if the condition is unmet.
pub fn settle(image: &mut [u8]) -> Result<u8, Refusal> {
    let code = ask!(nolpigat_settle(image.as_mut_ptr(), image.len()));
    taken(code, |answer| if let Answer::Retired(retired) = answer { Some(retired) } else { None })
}

/// The word of [`state`].
#[derive(Clone, Copy, Debug, PartialEq, Eq, Hash)]
pub enum Protection {
    /// Failing any one working card would not stop the store.
    Protected,
    /// Failing some working card would stop the store.
    Unprotected,
}

/// What the failure of one card would do.
pub fn state(image: &[u8]) -> Result<Protection, Refusal> {
    let code = ask!(nolpigat_state(image.as_ptr(), image.len()));
    taken(code, |answer| match answer {
        Answer::Protected => Some(Protection::Protected),
        Answer::Unprotected => Some(Protection::Unprotected),
        _ => None,
    })
}

/// How many records are committed present in the card's held blocks.
///
/// Refused: [`Card`](Refusal::Card) if the card does not work.
pub fn load(image: &[u8], card: Card) -> Result<u16, Refusal> {
    let code = ask!(nolpigat_load(image.as_ptr(), image.len(), card.0));
    taken(code, |answer| if let Answer::Load(load) = answer { Some(load) } else { None })
}

/// The call that a command's bytes ask for; [`Command`](crate::Command) writes and reads them. Operations 0 to 14 are
/// the calls above in their order, from [`start`] to [`load`].
///
/// Answer: that of the call. Refused: as the call; before all others [`Malformed`](Refusal::Malformed), for malformed
/// bytes or another length than [`COMMAND_SIZE`](crate::COMMAND_SIZE).
pub fn command(image: &mut [u8], bytes: &[u8]) -> Answer {
    Answer::from(ask!(nolpigat_command(image.as_mut_ptr(), image.len(), bytes.as_ptr(), bytes.len())))
}

/// An entry of a [`move_list`]: what [`move_block`] is to be called with. It is two bytes, as in the archive's list.
#[derive(Clone, Copy, Debug, Default, PartialEq, Eq, Hash)]
#[repr(C)]
pub struct Move {
    /// The card that the block moves from.
    pub card: Card,
    /// The block.
    pub block: Block,
}

/// What a [`move_list`] gives.
#[derive(Clone, Copy, Debug, PartialEq, Eq, Hash)]
#[must_use]
pub enum Moves<'a> {
    /// The moves, in the first entries of the lent list.
    Listed(&'a [Move]),
    /// There is no list: a block that must still move has a locked record on a card that it would move from.
    None,
}

/// The fewest moves that let [`settle`] succeed, blocks rising and then cards rising. The first entries of the list
/// become the moves; the others stay as lent, and without [`Listed`](Moves::Listed) all of them do. This call has no
/// command.
///
/// Refused: [`List`](Refusal::List) if the list is shorter than needed, which one of
/// [`MOST_MOVES`](crate::MOST_MOVES) never is. [`None`](Moves::None) comes before it.
///
/// ```
/// use nolpigat::*;
///
/// fn main() -> Result<(), Refusal> {
///     let mut image = [0; IMAGE_SIZE];
///     start(&mut image, Mask(0xF0))?; // cards 0 to 3
///     begin(&mut image, Tran(1), Card(1))?;
///     store(&mut image, Tran(1), Rec(9), 4660)?; // block 1 on cards 1 and 2
///     commit(&mut image, Tran(1))?;
///     place(&mut image, Mask(0x90))?; // cards 0 and 3
///     let mut list = [Move::default(); MOST_MOVES];
///     let Moves::Listed(moves) = move_list(&image, &mut list)? else { panic!("a record is locked") };
///     assert_eq!(moves.len(), 2);
///     for Move { card, block } in moves {
///         move_block(&mut image, *card, *block)?;
///     }
///     assert_eq!(settle(&mut image)?, 1);
///     Ok(())
/// }
/// ```
pub fn move_list<'a>(image: &[u8], list: &'a mut [Move]) -> Result<Moves<'a>, Refusal> {
    // An entry is two single bytes, so the list's bytes are those of the archive's list, and any bytes are moves.
    let room = size_of_val(list);
    let code = ask!(nolpigat_move_list(image.as_ptr(), image.len(), list.as_mut_ptr().cast(), room));
    taken(code, |answer| match answer {
        Answer::Listed(moves) => list.get(..moves.into()).map(Moves::Listed),
        Answer::None => Some(Moves::None),
        _ => None,
    })
}
