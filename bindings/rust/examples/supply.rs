//! Supply: the supply of several cards fails, the store stops, and the cards come back. docs/RECIPES.md says why in
//! this order, and which stops stay final.

use nolpigat::*;

/// What the panel does next.
#[derive(Clone, Copy, Debug, PartialEq)]
enum Outcome {
    /// The store runs: go on with work. What was open is rolled back.
    Runs,
    /// Cards of the newest placement are still missing.
    Waits,
    /// No return helps: people decide to start anew, which erases.
    Final,
}

/// The driver finds a card without supply: it is marked failed, also after the stop.
fn card_gone(image: &mut [u8], card: u8) -> Result<(), Refusal> {
    print!("  card {card} is gone: ");
    match fail(image, Card(card)) {
        Ok(Failed::Placed(mask)) => println!("the store goes on with {mask}"),
        Ok(Failed::Unplaced) => println!("the store goes on"),
        Ok(Failed::Stopped) => println!("stopped"),
        Err(Refusal::Card) => println!("it did not work before"),
        Err(refusal) => return Err(refusal),
    }
    Ok(())
}

/// A card has supply again, and its table is in the image. A refusal changes nothing: a stale card is left out, and the
/// right one may still come.
fn card_back(image: &mut [u8], card: u8) -> Result<(), Refusal> {
    print!("  card {card} is back: ");
    match return_card(image, Card(card)) {
        Ok(()) => println!("taken"),
        Err(Refusal::Stale) => println!("stale"),
        Err(Refusal::Card) => println!("the store runs, or did not miss it"),
        Err(refusal) => return Err(refusal),
    }
    Ok(())
}

/// The failed cards of the newest placement: those that have to come back.
fn missing(image: &[u8]) -> Result<Mask, Refusal> {
    let newest = placement(image, placement_count(image)? - 1)?.map_or(0, |mask| mask.0);
    Ok(Mask(newest & failed(image)?.0))
}

/// After each return: does the store run, and if not, what is it waiting for?
fn look(image: &[u8]) -> Result<Outcome, Refusal> {
    if !stopped(image)? {
        println!("  the store runs");
        return Ok(Outcome::Runs);
    }
    let mask = missing(image)?;
    if mask != Mask(0) {
        println!("  the store waits for cards {mask}");
        return Ok(Outcome::Waits);
    }
    println!("  the store stays stopped: an older placement has lost two cards that no return takes");
    Ok(Outcome::Final)
}

/// The cards that the driver finds with supply again, in the order in which they come.
fn cards_back(image: &mut [u8], cards: &[u8]) -> Result<Outcome, Refusal> {
    let mut outcome = look(image)?;
    for card in cards {
        if outcome == Outcome::Waits {
            card_back(image, *card)?;
            outcome = look(image)?;
        }
    }
    Ok(outcome)
}

// ---- the cases, one after the other ----

fn gone(image: &mut [u8], cards: &[u8]) -> Result<(), Refusal> {
    cards.iter().try_for_each(|card| card_gone(image, *card))
}

/// Record 9 is committed. Transaction 2 has changed it and is open.
fn fill(image: &mut [u8], mask: u8) -> Result<(), Refusal> {
    start(image, Mask(mask))?;
    begin(image, Tran(1), Card(2))?;
    store(image, Tran(1), Rec(9), 1234)?;
    commit(image, Tran(1))?;
    begin(image, Tran(2), Card(2))?;
    store(image, Tran(2), Rec(9), 5678)
}

/// What was committed is found, and what was open is rolled back.
fn find(image: &mut [u8]) -> Result<(), Refusal> {
    let word = |value: Option<u16>| value.map_or(Answer::Absent, Answer::Value);
    let lost = get(image, Tran(2), Rec(9)).map_or_else(Answer::Refused, word);
    println!("  get by the transaction that was open: {lost}");
    begin(image, Tran(1), Card(2))?;
    let value = get(image, Tran(1), Rec(9))?;
    println!("  get by a new one: {}", word(value));
    assert_eq!(value, Some(1234));
    Ok(())
}

/// All four cards lose their supply. Card 0 was the first: the store went on without it.
fn all_gone(image: &mut [u8]) -> Result<(), Refusal> {
    println!("all cards");
    fill(image, 0xF0)?;
    gone(image, &[0, 1, 2, 3])?;
    assert_eq!(cards_back(image, &[0, 3, 1, 2, 0])?, Outcome::Runs);
    find(image)
}

/// Another card is put in for card 2; its table has other bytes. Then the right one comes.
fn wrong_card(image: &mut [u8]) -> Result<(), Refusal> {
    println!("another card in its place");
    fill(image, 0xE0)?;
    gone(image, &[1, 2])?;
    let table = 32 + 2 * 2628..32 + 3 * 2628;
    let kept = image[table.clone()].to_vec();
    image[table.clone()].fill(0xFF);
    assert_eq!(cards_back(image, &[2])?, Outcome::Waits);
    image[table].copy_from_slice(&kept);
    assert_eq!(cards_back(image, &[2, 1])?, Outcome::Runs);
    find(image)
}

/// Cards 0 and 3 fail in the middle of a reorganisation, and the newest placement has neither.
fn stays_final(image: &mut [u8]) -> Result<(), Refusal> {
    println!("a stop that stays final");
    fill(image, 0xF0)?;
    place(image, Mask(0xE0))?;
    gone(image, &[0, 1, 2, 3])?;
    assert_eq!(cards_back(image, &[1, 2])?, Outcome::Final);
    card_back(image, 0)?;
    card_back(image, 3)
}

fn main() -> Result<(), Refusal> {
    let mut image = [0; IMAGE_SIZE];
    all_gone(&mut image)?;
    wrong_card(&mut image)?;
    stays_final(&mut image)
}
