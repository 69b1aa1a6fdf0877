//! Boot: what a panel does with the image that it finds after power on. docs/RECIPES.md says why.

use nolpigat::*;

/// What the panel does next.
#[derive(Debug, PartialEq)]
enum Boot {
    /// Go on.
    Runs,
    /// Keep the image and return the cards (supply); only people may start it anew.
    Stopped,
    /// The same: this is no image of a running or stopped store.
    Unusable,
}

/// A refusal that cannot come at this place, or one that this program does not know.
fn fault(call: &str, refusal: Refusal) -> Boot {
    println!("{call}: {}: {refusal}", Answer::Refused(refusal));
    Boot::Unusable
}

/// Start erases the image, so it is called for one that was never written, and for no other.
fn first_start(image: &mut [u8], cards: Mask) -> Boot {
    match start(image, cards) {
        Ok(()) => {
            println!("first start, cards {cards}");
            Boot::Runs
        }
        Err(Refusal::Placement) => {
            println!("cards {cards} are fewer than two: set up the cabinet");
            Boot::Unusable
        }
        Err(refusal) => fault("start", refusal),
    }
}

/// These queries are not refused after a stop.
fn tell_stop(image: &[u8]) -> Result<Boot, Refusal> {
    print!("stopped: working cards {}, failed cards {}, placements", working(image)?, failed(image)?);
    for index in 0..MOST_PLACEMENTS {
        if let Some(mask) = placement(image, index)? {
            print!(" {mask}");
        }
    }
    println!();
    Ok(Boot::Stopped)
}

/// Nobody goes on with what was open before the power went: it is rolled back.
fn end_what_is_open(image: &mut [u8]) -> Result<Boot, Refusal> {
    for transaction in (1..=15).map(Tran) {
        if let Some(card) = home(image, transaction)? {
            rollback(image, transaction)?;
            println!("transaction {transaction}, begun at card {card}: rolled back");
        }
    }
    Ok(Boot::Runs)
}

/// State is asked first: it changes nothing and tells all cases apart.
fn boot(image: &mut [u8], cards: Mask) -> Boot {
    match state(image) {
        Ok(Protection::Protected) => {
            println!("runs, protected");
            end_what_is_open(image).unwrap_or_else(|refusal| fault("rollback", refusal))
        }
        Ok(Protection::Unprotected) => {
            println!("runs, unprotected: a failure may stop it");
            end_what_is_open(image).unwrap_or_else(|refusal| fault("rollback", refusal))
        }
        Err(Refusal::Length) => {
            println!("{} bytes are no image of this version", image.len());
            Boot::Unusable
        }
        Err(Refusal::ControlForm) if image.iter().all(|byte| *byte == 0) => first_start(image, cards),
        Err(Refusal::ControlForm) => {
            println!("the control part is broken: keep the image, restore the last good copy");
            Boot::Unusable
        }
        Err(Refusal::Stopped) => tell_stop(image).unwrap_or_else(|refusal| fault("queries", refusal)),
        Err(refusal) => fault("state", refusal),
    }
}

// ---- the cases, one after the other ----

fn ends(name: &str, image: &mut [u8], cards: Mask, expected: Boot) {
    print!("{name}: ");
    assert_eq!(boot(image, cards), expected);
}

fn main() -> Result<(), Refusal> {
    let mut image = vec![0; IMAGE_SIZE];
    let cards = Mask(0xE0);
    ends("new, one card", &mut image, Mask(0x80), Boot::Unusable);
    ends("new", &mut image, cards, Boot::Runs);
    begin(&mut image, Tran(2), Card(1))?;
    store(&mut image, Tran(2), Rec(9), 1234)?;
    ends("power lost in a transaction", &mut image, cards, Boot::Runs);
    ends("again", &mut image, cards, Boot::Runs);
    assert_eq!(fail(&mut image, Card(1))?, Failed::Placed(Mask(0xA0)));
    ends("card 1 failed", &mut image, cards, Boot::Runs);
    assert_eq!(fail(&mut image, Card(2))?, Failed::Stopped);
    ends("card 2 failed", &mut image, cards, Boot::Stopped);
    ends("another length", &mut image[1..], cards, Boot::Unusable);
    image.fill(0);
    image[100] = 1;
    ends("broken", &mut image, cards, Boot::Unusable);
    Ok(())
}
