//! Charge: a cycle of the charger in a transaction, with conflicts and a transaction that is lost.
//! docs/RECIPES.md says why.

use nolpigat::*;

/// What a charge changes, both or none: how many charges, and their weight.
const CHARGES: Rec = Rec(9);
const KILOGRAMS: Rec = Rec(17);
const MOST_VALUE: u16 = 65_534;

/// How a step or a whole charge ended, where it is not done.
#[derive(Clone, Copy, Debug, PartialEq)]
enum Undone {
    /// Another transaction locks a record: try again after a while.
    Later,
    /// All transactions are open: try again after a while.
    AllOpen,
    /// The home's card has failed and the transaction was rolled back: begin a new one.
    Lost,
    /// The sum is no value.
    Full,
    /// The store has stopped.
    Stopped,
    /// A fault of this program, or a refusal that it does not know.
    Fault,
}

/// What is open now, for people: one of these is in the way.
fn print_open(image: &[u8]) {
    for transaction in (1..=15).map(Tran) {
        if let Ok(Some(card)) = home(image, transaction) {
            println!("  open: transaction {transaction}, home card {card}");
        }
    }
}

/// What a refusal means for the charge.
fn ended(call: &str, refusal: Refusal) -> Undone {
    println!("  {call}: {}", Answer::Refused(refusal));
    match refusal {
        Refusal::Stopped => Undone::Stopped,
        Refusal::NotOpen => Undone::Lost,
        Refusal::Locked => Undone::Later,
        other => {
            println!("  {other}");
            Undone::Fault
        }
    }
}

/// The wanted card if it is in the newest placement, else the next that is: any other is refused as a home (8).
fn choose_home(image: &[u8], wanted: Card) -> Result<Card, Undone> {
    let count = placement_count(image).map_err(|refusal| ended("placement_count", refusal))?;
    let newest = placement(image, count - 1).map_err(|refusal| ended("placement", refusal))?.ok_or(Undone::Fault)?;
    let going_round = (wanted.0..8).chain(0..wanted.0).map(Card);
    going_round.into_iter().find(|card| newest.contains(*card)).ok_or(Undone::Fault)
}

/// Opens the lowest free transaction.
fn open_one(image: &mut [u8], wanted: Card) -> Result<Transaction<'_>, Undone> {
    let home = choose_home(image, wanted)?;
    let opened = Transaction::begin_free(image, home).map_err(|refusal| ended("begin", refusal))?;
    opened.ok_or(Undone::AllOpen)
}

/// Adds to a record; an absent one counts as 0.
fn add(transaction: &mut Transaction, record: Rec, amount: u16) -> Result<(), Undone> {
    let old = transaction.get(record).map_err(|refusal| ended("get", refusal))?.unwrap_or(0);
    let sum = old.checked_add(amount).filter(|sum| *sum <= MOST_VALUE).ok_or(Undone::Full)?;
    transaction.store(record, sum).map_err(|refusal| ended("store", refusal))
}

fn commit_it(transaction: Transaction) -> Result<(), Undone> {
    transaction.commit().map_err(|refusal| ended("commit", refusal))
}

/// Both records, then the commit. Where a step is not done the guard is dropped, which rolls back.
fn charge_once(image: &mut [u8], home: Card, kilograms: u16) -> Result<(), Undone> {
    let mut transaction = open_one(image, home)?;
    add(&mut transaction, CHARGES, 1)?;
    add(&mut transaction, KILOGRAMS, kilograms)?;
    commit_it(transaction)
}

/// One charge. What cannot be finished is rolled back, so that nobody waits for its locks.
fn charge(image: &mut [u8], home: Card, kilograms: u16) -> Result<(), Undone> {
    let result = charge_once(image, home, kilograms);
    if result == Err(Undone::Later) {
        print_open(image);
    }
    result
}

// ---- the cases, one after the other ----

fn ends(name: &str, result: Result<(), Undone>, expected: Result<(), Undone>) {
    let word = match result {
        Ok(()) => "done",
        Err(Undone::Later) => "later",
        Err(Undone::AllOpen) => "later, all are open",
        Err(Undone::Lost) => "lost: begin a new one",
        Err(Undone::Full) => "full",
        Err(Undone::Stopped) => "stopped",
        Err(Undone::Fault) => "fault",
    };
    println!("{name}: {word}");
    assert_eq!(result, expected);
}

/// The desk holds the weight, then lets it go. Its transaction outlives calls of others, so no guard has the image.
fn conflict(image: &mut [u8]) -> Result<(), Refusal> {
    let desk = free_transaction(image)?.expect("one is not open");
    begin(image, desk, Card(1))?;
    store(image, desk, KILOGRAMS, 355)?;
    ends("charge while the desk works", charge(image, Card(0), 360), Err(Undone::Later));
    commit(image, desk)?;
    ends("charge after the desk's commit", charge(image, Card(0), 360), Ok(()));
    Ok(())
}

/// The charger's home fails. Before it asks again, the desk begins and is given the same number: the charger would work
/// in the desk's transaction if it went on with that number. So whoever calls fail tells those that were begun at the
/// card.
fn lost(image: &mut [u8]) -> Result<(), Refusal> {
    let mut charger = open_one(image, Card(1)).expect("one is not open");
    let number = charger.number();
    add(&mut charger, CHARGES, 1).expect("nobody is in the way");
    assert_eq!(fail(charger.image(), Card(1))?, Failed::Placed(Mask(0xA0)));
    ends("commit after the home failed", commit_it(charger), Err(Undone::Lost));
    let desk = free_transaction(image)?.expect("one is not open");
    begin(image, desk, Card(0))?;
    println!("the lost transaction was {number}, the desk's new one is {desk}");
    ends("charge anew", charge(image, Card(1), 370), Ok(()));
    commit(image, desk)
}

fn all_open(image: &mut [u8]) -> Result<(), Refusal> {
    while let Some(transaction) = free_transaction(image)? {
        begin(image, transaction, Card(0))?;
    }
    ends("charge with all transactions open", charge(image, Card(0), 380), Err(Undone::AllOpen));
    (1..=15).try_for_each(|transaction| commit(image, Tran(transaction)))
}

fn main() -> Result<(), Refusal> {
    let image = &mut vec![0; IMAGE_SIZE];
    ends("charge before the first start", charge(image, Card(0), 350), Err(Undone::Fault));
    start(image, Mask(0xE0))?;
    ends("charge", charge(image, Card(0), 350), Ok(()));
    conflict(image)?;
    lost(image)?;
    all_open(image)?;
    ends("charge above the limit", charge(image, Card(0), 65_000), Err(Undone::Full));
    assert_eq!(fail(image, Card(0))?, Failed::Stopped);
    ends("charge after a stop", charge(image, Card(0), 390), Err(Undone::Stopped));
    Ok(())
}
