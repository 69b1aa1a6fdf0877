//! Convert: at boot a panel of version 3 finds an image that an earlier version left. docs/RECIPES.md says why in this
//! order.

use nolpigat::*;

/// What the panel does next.
#[derive(Debug, PartialEq)]
enum Found {
    /// The image of this version is there: save it, then go on with boot.
    Ready,
    /// The bytes were never written: go on with boot on an image of zeros.
    New,
    /// Keep the bytes as they are and call people.
    Unusable,
}

/// The found bytes, which stay as they are, become an image of this version.
fn take_over(bytes: &[u8], image: &mut [u8; IMAGE_SIZE]) -> Found {
    if bytes.len() == IMAGE_SIZE {
        println!("of this version");
        image.copy_from_slice(bytes);
        return Found::Ready;
    }
    match convert(bytes, image) {
        Ok(written) => {
            println!("converted, {written} bytes written");
            Found::Ready
        }
        Err(Refusal::Length) => {
            println!("{} bytes are no image of this or an earlier version", bytes.len());
            Found::Unusable
        }
        Err(Refusal::ControlForm) if bytes.iter().all(|byte| *byte == 0) => {
            println!("never started: nothing to convert");
            Found::New
        }
        Err(Refusal::ControlForm) => {
            println!("the control part is broken: keep the bytes, restore the last good copy");
            Found::Unusable
        }
        Err(refusal) => {
            println!("convert: {}: {refusal}", Answer::Refused(refusal));
            Found::Unusable
        }
    }
}

// ---- the cases, one after the other ----

const VERSION_1: usize = VERSION_1_IMAGE_SIZE;
const VERSION_2: usize = VERSION_2_IMAGE_SIZE;

/// The store as version 2 had it: no serial, and no stamps of four bytes behind the cards' tables. Its first bytes are
/// those of version 1, as long as no table of a plant is placed. The byte behind it stays zero.
fn as_earlier(store: &[u8]) -> [u8; VERSION_2 + 1] {
    const CONTROL: usize = 32;
    const TABLE: usize = 2624;
    let mut found = [0; VERSION_2 + 1];
    found[..CONTROL].copy_from_slice(&store[..CONTROL]);
    found[23..26].fill(0);
    for card in 0..8 {
        let table = &store[CONTROL + card * (TABLE + 4)..][..TABLE];
        found[CONTROL + card * TABLE..][..TABLE].copy_from_slice(table);
    }
    let kept = &store[CONTROL + 8 * (TABLE + 4)..];
    found[CONTROL + 8 * TABLE..VERSION_2].copy_from_slice(kept);
    found
}

fn ends(name: &str, bytes: &[u8], image: &mut [u8; IMAGE_SIZE], expected: Found) {
    print!("{name}: ");
    assert_eq!(take_over(bytes, image), expected);
}

/// What boot asks first.
fn is_state(image: &[u8], expected: Result<Protection, Refusal>) {
    let word = state(image);
    println!("  state: {}", word.map_or_else(Answer::Refused, Answer::from));
    assert_eq!(word, expected);
}

/// Cards 0, 1 and 2, and transaction 1 with a record.
fn fill(store: &mut [u8]) -> Result<(), Refusal> {
    start(store, Mask(0xE0))?;
    begin(store, Tran(1), Card(0))?;
    nolpigat::store(store, Tran(1), Rec(9), 1234)
}

/// The transaction is still open, and goes on.
fn goes_on(image: &mut [u8]) -> Result<(), Refusal> {
    let value = get(image, Tran(1), Rec(9))?;
    println!("  get: {}", value.map_or(Answer::Absent, Answer::Value));
    commit(image, Tran(1))
}

/// A card that failed before the conversion is stale, so that only a start helps.
fn stays_stopped(image: &mut [u8]) {
    let Err(refusal) = return_card(image, Card(2)) else { panic!("a card of before was taken") };
    println!("  return of card 2: {refusal}");
    assert_eq!(refusal, Refusal::Stale);
}

fn main() -> Result<(), Refusal> {
    let (mut store, mut lent) = ([0; IMAGE_SIZE], [0; IMAGE_SIZE]);
    let image = &mut lent;
    ends("never written", &[0; VERSION_1], image, Found::New);
    fill(&mut store)?;
    let found = as_earlier(&store);
    for (name, length) in [("running, of version 1", VERSION_1), ("running, of version 2", VERSION_2)] {
        ends(name, &found[..length], image, Found::Ready);
        is_state(image, Ok(Protection::Protected));
        goes_on(image)?;
    }
    let again = *image;
    ends("again, of this version", &again, image, Found::Ready);
    is_state(image, Ok(Protection::Protected));
    ends("a byte too few", &found[..VERSION_2 - 1], image, Found::Unusable);
    ends("a byte too many", &found, image, Found::Unusable);
    // A cut image of version 2 is none of version 1 if it has a table.
    let line = Line { first: Block(0), last: Block(63), cards: [Card(1), Card(2)] };
    place_by_table(&mut store, &[line])?;
    let found = as_earlier(&store);
    ends("with a table", &found[..VERSION_2], image, Found::Ready);
    is_state(image, Ok(Protection::Unprotected));
    ends("cut short", &found[..VERSION_1], image, Found::Unusable);
    // Of three cards two fail.
    fill(&mut store)?;
    assert_eq!(fail(&mut store, Card(1))?, Failed::Placed(Mask(0xA0)));
    assert_eq!(fail(&mut store, Card(2))?, Failed::Stopped);
    let mut found = as_earlier(&store);
    ends("stopped", &found[..VERSION_1], image, Found::Ready);
    is_state(image, Err(Refusal::Stopped));
    stays_stopped(image);
    found[0] = 0;
    ends("broken", &found[..VERSION_1], image, Found::Unusable);
    Ok(())
}
