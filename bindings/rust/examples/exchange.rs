//! Exchange: a card that failed, or one that still works, is replaced while the store goes on. docs/RECIPES.md says why
//! in this order.

use nolpigat::*;
use std::fmt::Display;

/// How a step or a whole part ended, where it is not done.
#[derive(Clone, Copy, Debug, PartialEq)]
enum Undone {
    /// Others are in the way (see in_the_way.rs): do this part again after a while.
    Later,
    /// The store has stopped.
    Stopped,
    /// Not in this state of the cabinet, a fault of this program, or an unknown refusal.
    Fault,
}

/// What a refusal means. The work of others is the reason of 11 to 14: a record is locked, a block was moved or a
/// placement added since the list was made, or the card is a home.
impl From<Refusal> for Undone {
    fn from(refusal: Refusal) -> Undone {
        match refusal {
            Refusal::Stopped => Undone::Stopped,
            Refusal::NotHeld | Refusal::CopyLocked | Refusal::Unsettled | Refusal::Home => Undone::Later,
            other => {
                println!("  {other}");
                Undone::Fault
            }
        }
    }
}

/// Prints what a call answered, in the words of the listing.
fn print<T, W: Display>(call: &str, result: Result<T, Refusal>, words: impl Fn(&T) -> W) -> Result<T, Refusal> {
    match &result {
        Ok(answer) => println!("  {call}: {}", words(answer)),
        Err(refusal) => println!("  {call}: {}", Answer::Refused(*refusal)),
    }
    result
}

/// List, moves, settle: afterwards every block lies where the newest placement has it, and only that one is active.
fn reorganise(image: &mut [u8]) -> Result<(), Undone> {
    let mut list = [Move::default(); MOST_MOVES];
    let moves = print("move_list", move_list(image, &mut list), |moves| match moves {
        Moves::Listed(moves) => format!("listed {}", moves.len()),
        Moves::None => "none".to_string(),
    })?;
    let Moves::Listed(moves) = moves else { return Err(Undone::Later) };
    for Move { card, block } in moves {
        print("move", move_block(image, *card, *block), |copies| Answer::Copies(*copies))?;
    }
    print("settle", settle(image), |retired| Answer::Retired(*retired))?;
    Ok(())
}

/// The newest placement's mask.
fn newest(image: &[u8]) -> Result<Mask, Undone> {
    placement(image, placement_count(image)? - 1)?.ok_or(Undone::Fault)
}

/// Places the mask. Where three placements are active (10), the older ones are retired before.
fn place_it(image: &mut [u8], mask: Mask) -> Result<(), Undone> {
    match print("place", place(image, mask), |()| Answer::Ok) {
        Err(Refusal::Active) => {
            reorganise(image)?;
            Ok(print("place", place(image, mask), |()| Answer::Ok)?)
        }
        other => Ok(other?),
    }
}

/// Part 1 for a card that failed. After it the card may be pulled and the new one put in. As the other parts, it passes
/// over what is done already, and so may be called again after `Later`.
fn take_out_failed(image: &mut [u8], card: Card) -> Result<(), Undone> {
    if !failed(image)?.contains(card) {
        match print("fail", fail(image, card), |failed| Answer::from(*failed))? {
            Failed::Placed(_) => {}
            Failed::Unplaced => {} // the newest placement had it not
            Failed::Stopped => return Err(Undone::Stopped),
        }
    }
    reorganise(image)
}

/// Part 1 for a card that still works: its blocks have two copies all the time.
fn take_out_working(image: &mut [u8], card: Card) -> Result<(), Undone> {
    let mask = newest(image)?;
    if mask.contains(card) {
        place_it(image, mask.without(card))?;
    }
    reorganise(image)?;
    Ok(print("withdraw", withdraw(image, card), |()| Answer::Ok)?)
}

/// Part 2: the new card begins empty, and its share of the blocks is brought to it.
fn put_in(image: &mut [u8], card: Card) -> Result<(), Undone> {
    if !working(image)?.contains(card) {
        print("fit", fit(image, card), |()| Answer::Ok)?;
    }
    let mask = newest(image)?;
    if !mask.contains(card) {
        place_it(image, mask.with(card)?)?;
    }
    reorganise(image)
}

// ---- the cases, one after the other ----

fn ends(name: &str, result: Result<(), Undone>, expected: Result<(), Undone>) {
    let word = match result {
        Ok(()) => "done",
        Err(Undone::Later) => "later",
        Err(Undone::Stopped) => "stopped",
        Err(Undone::Fault) => "fault",
    };
    println!("{name}: {word}");
    assert_eq!(result, expected);
}

fn is_state(image: &[u8], expected: Protection) -> Result<(), Refusal> {
    assert_eq!(print("state", state(image), |word| Answer::from(*word))?, expected);
    Ok(())
}

/// Cards 0, 1 and 2, and records in blocks 0 and 1.
fn fill(image: &mut [u8]) -> Result<(), Refusal> {
    start(image, Mask(0xE0))?;
    let mut transaction = Transaction::begin(image, Tran(1), Card(0))?;
    transaction.store(Rec(0), 100)?;
    transaction.store(Rec(9), 109)?;
    transaction.commit()
}

/// Transaction 3 locks a record that has to move. Until it ends, part 1 is not done and part 2 is refused: the card is
/// still in an active placement.
fn failed_card(image: &mut [u8]) -> Result<(), Refusal> {
    begin(image, Tran(3), Card(2))?;
    store(image, Tran(3), Rec(9), 110)?;
    ends("take out failed card 1", take_out_failed(image, Card(1)), Err(Undone::Later));
    ends("put in too early", put_in(image, Card(1)), Err(Undone::Fault));
    commit(image, Tran(3))?;
    ends("take it out again", take_out_failed(image, Card(1)), Ok(()));
    is_state(image, Protection::Unprotected)?;
    ends("put in card 1", put_in(image, Card(1)), Ok(()));
    is_state(image, Protection::Protected)
}

/// Transaction 3 was begun at the card: it can be withdrawn when that has ended.
fn working_card(image: &mut [u8]) -> Result<(), Refusal> {
    begin(image, Tran(3), Card(2))?;
    ends("take out working card 2", take_out_working(image, Card(2)), Err(Undone::Later));
    commit(image, Tran(3))?;
    ends("take it out again", take_out_working(image, Card(2)), Ok(()));
    ends("put in card 2", put_in(image, Card(2)), Ok(()));
    Ok(())
}

/// Two placements were added and not settled, so that three are active.
fn three_active(image: &mut [u8]) -> Result<(), Refusal> {
    place(image, Mask(0xA0))?;
    place(image, Mask(0xE0))?;
    ends("take out working card 1 of three placements", take_out_working(image, Card(1)), Ok(()));
    ends("put in card 1", put_in(image, Card(1)), Ok(()));
    Ok(())
}

fn main() -> Result<(), Refusal> {
    let image = &mut vec![0; IMAGE_SIZE];
    ends("before the first start", put_in(image, Card(1)), Err(Undone::Fault));
    fill(image)?;
    failed_card(image)?;
    working_card(image)?;
    three_active(image)?;
    ends("take out failed card 0 of three", take_out_failed(image, Card(0)), Ok(()));
    ends("take out failed card 1 of two", take_out_failed(image, Card(1)), Err(Undone::Stopped));
    ends("put in after the stop", put_in(image, Card(0)), Err(Undone::Stopped));
    Ok(())
}
