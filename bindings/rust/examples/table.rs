//! Table: a plant chooses the two cards of each block, and goes back to the store's own choice. docs/RECIPES.md says
//! why in this order.

use nolpigat::*;
use std::fmt::Display;

/// How a step or a whole part ended, where it is not done.
#[derive(Clone, Copy, Debug, PartialEq)]
enum Undone {
    /// Others are in the way (see in_the_way.rs): reorganise again after a while.
    Later,
    /// The table is wrong.
    Mend,
    /// The store has stopped.
    Stopped,
    /// A fault of this program, or an unknown refusal.
    Fault,
}

impl From<Refusal> for Undone {
    fn from(refusal: Refusal) -> Undone {
        match refusal {
            Refusal::Range | Refusal::Placement | Refusal::Gap | Refusal::Overlap => Undone::Mend,
            Refusal::Stopped => Undone::Stopped,
            Refusal::NotHeld | Refusal::CopyLocked | Refusal::Unsettled => Undone::Later,
            _ => Undone::Fault,
        }
    }
}

/// Prints what a call answered, in the words of the listing, and of a refusal what it means.
fn print<T, W: Display>(call: &str, result: Result<T, Refusal>, words: impl Fn(&T) -> W) -> Result<T, Refusal> {
    match &result {
        Ok(answer) => println!("  {call}: {}", words(answer)),
        Err(refusal) => println!("  {call}: {}: {refusal}", Answer::Refused(*refusal)),
    }
    result
}

/// List, moves, settle: afterwards every block lies where the newest placement has it.
fn reorganise(image: &mut [u8]) -> Result<(), Undone> {
    let mut list = [Move::default(); MOST_MOVES];
    let moves = print("move_list", move_list(image, &mut list), |moves| match moves {
        Moves::Listed(moves) => format!("listed {}", moves.len()),
        Moves::None => "none".to_string(),
    })?;
    let Moves::Listed(moves) = moves else { return Err(Undone::Later) };
    for Move { card, block } in moves {
        if let Err(refusal) = move_block(image, *card, *block) {
            print("move", Err(refusal), |copies| Answer::Copies(*copies))?;
        }
    }
    print("settle", settle(image), |retired| Answer::Retired(*retired))?;
    Ok(())
}

/// The blocks go to the cards of the table. Where three placements are active (10), the older ones are retired before.
/// After `Later` only `reorganise` is called again if the table is placed already.
fn use_table(image: &mut [u8], lines: &[Line]) -> Result<(), Undone> {
    match print("place_by_table", place_by_table(image, lines), |()| Answer::Ok) {
        Err(Refusal::Active) => {
            reorganise(image)?;
            print("place_by_table", place_by_table(image, lines), |()| Answer::Ok)?;
        }
        other => other?,
    }
    reorganise(image)
}

/// The newest placement's mask.
fn newest(image: &[u8]) -> Result<Mask, Undone> {
    placement(image, placement_count(image)? - 1)?.ok_or(Undone::Fault)
}

/// The newest mask again, which place puts on rails. What is begun is first brought to its end, so that one placement
/// is active. 9 says that this one is by rails already.
fn back_to_rails(image: &mut [u8]) -> Result<(), Undone> {
    reorganise(image)?;
    let mask = newest(image)?;
    match print("place", place(image, mask), |()| Answer::Ok) {
        Ok(()) => reorganise(image),
        Err(Refusal::Placement) => Ok(()),
        Err(refusal) => Err(refusal.into()),
    }
}

// ---- the cases, one after the other ----

/// A table of two lines.
fn table(low: (u8, u8, [u8; 2]), high: (u8, u8, [u8; 2])) -> [Line; 2] {
    [low, high].map(|(first, last, cards)| Line { first: Block(first), last: Block(last), cards: cards.map(Card) })
}

/// The forehearth's records, blocks 0 to 9, on cards 1 and 6; all others on 0 and 5.
fn forehearth() -> [Line; 2] {
    table((0, 9, [1, 6]), (10, 63, [0, 5]))
}

fn ends(name: &str, result: Result<(), Undone>, expected: Result<(), Undone>) {
    let word = match result {
        Ok(()) => "done",
        Err(Undone::Later) => "later",
        Err(Undone::Mend) => "mend the table",
        Err(Undone::Stopped) => "stopped",
        Err(Undone::Fault) => "fault",
    };
    println!("{name}: {word}");
    assert_eq!(result, expected);
}

/// From which cards a record of the forehearth and another one are read.
fn sources(image: &mut [u8]) -> Result<(), Refusal> {
    begin(image, Tran(1), Card(0))?;
    let [first, second] = [16, 160].map(|record| source(image, Tran(1), Rec(record)));
    let (first, second) = (first?.unwrap_or_default(), second?.unwrap_or_default());
    println!("record 16 is read from card {first}, record 160 from card {second}");
    commit(image, Tran(1))
}

/// Eight cards, and records in blocks 2 and 20.
fn fill(image: &mut [u8]) -> Result<(), Refusal> {
    start(image, Mask(0xFF))?;
    let mut transaction = Transaction::begin(image, Tran(1), Card(0))?;
    transaction.store(Rec(16), 100)?;
    transaction.store(Rec(160), 109)?;
    transaction.commit()?;
    sources(image)
}

fn wrong_tables(image: &mut [u8]) {
    let wrong = [
        ("a block in no line", table((0, 9, [1, 6]), (11, 63, [0, 5]))),
        ("a block in two lines", table((0, 10, [1, 6]), (10, 63, [0, 5]))),
        ("equal cards", table((0, 9, [1, 1]), (10, 63, [0, 5]))),
        ("last block before the first", table((9, 0, [1, 6]), (10, 63, [0, 5]))),
    ];
    for (name, lines) in wrong {
        ends(name, use_table(image, &lines), Err(Undone::Mend));
    }
}

/// A record that has to move is locked: the table is placed, and the moves are made later.
fn in_the_way(image: &mut [u8]) -> Result<(), Refusal> {
    begin(image, Tran(2), Card(0))?;
    store(image, Tran(2), Rec(16), 101)?;
    ends("forehearth's table", use_table(image, &forehearth()), Err(Undone::Later));
    commit(image, Tran(2))?;
    ends("again", reorganise(image), Ok(()));
    sources(image)
}

/// A failure of a card of the table places the others by rails. The table is placed again when the card has been
/// exchanged.
fn failure(image: &mut [u8]) -> Result<(), Refusal> {
    assert!(matches!(print("fail", fail(image, Card(1)), |failed| Answer::from(*failed))?, Failed::Placed(_)));
    ends("card 1 fails", reorganise(image), Ok(()));
    sources(image)?;
    fit(image, Card(1))?;
    ends("the table again", use_table(image, &forehearth()), Ok(()));
    sources(image)
}

/// The same cards, on rails.
fn back(image: &mut [u8]) -> Result<(), Refusal> {
    ends("back to rails", back_to_rails(image), Ok(()));
    sources(image)?;
    ends("once more", back_to_rails(image), Ok(()));
    Ok(())
}

/// Two placements were added and not settled, so that three are active.
fn three_active(image: &mut [u8]) -> Result<(), Refusal> {
    place(image, Mask(0xFE))?;
    place(image, Mask(0xFF))?;
    ends("the table, three are active", use_table(image, &forehearth()), Ok(()));
    sources(image)
}

fn main() -> Result<(), Refusal> {
    let image = &mut vec![0; IMAGE_SIZE];
    ends("before the first start", use_table(image, &forehearth()), Err(Undone::Fault));
    fill(image)?;
    wrong_tables(image);
    in_the_way(image)?;
    failure(image)?;
    back(image)?;
    three_active(image)?;
    // Of the table's cards two fail.
    assert!(matches!(fail(image, Card(0))?, Failed::Placed(_)));
    assert_eq!(fail(image, Card(5))?, Failed::Stopped);
    ends("after the stop", use_table(image, &forehearth()), Err(Undone::Stopped));
    Ok(())
}
