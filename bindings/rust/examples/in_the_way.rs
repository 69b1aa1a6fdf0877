//! In the way: the move list answers none; which transactions are the reason, and what do they lock? docs/RECIPES.md
//! says how this is found.

use nolpigat::*;

/// A copy of the image in which no other transaction is open than this one. What is tried out is done there.
fn only_open(image: &[u8], transaction: Tran) -> Result<Vec<u8>, Refusal> {
    let mut copy = image.to_vec();
    for other in (1..=15).map(Tran).filter(|other| *other != transaction) {
        if home(&copy, other)?.is_some() {
            rollback(&mut copy, other)?;
        }
    }
    Ok(copy)
}

/// Another transaction on the copy is refused with 7 where a record is locked.
fn print_locked(copy: &mut [u8]) -> Result<(), Refusal> {
    let newest = placement(copy, placement_count(copy)? - 1)?.and_then(|mask| mask.members().next());
    let Some(probe) = Transaction::begin_free(copy, newest.unwrap_or_default())? else { return Ok(()) };
    for record in 0..512 {
        match probe.get(Rec(record)) {
            Ok(_) => {}
            Err(Refusal::Locked) => println!("  it locks record {record} of block {}", record / 8),
            Err(refusal) => return Err(refusal),
        }
    }
    Ok(())
}

/// A transaction is in the way exactly if the list is none where only this one is open.
fn print_those_in_the_way(image: &[u8]) -> Result<(), Refusal> {
    let mut list = [Move::default(); MOST_MOVES];
    for transaction in (1..=15).map(Tran) {
        let Some(card) = home(image, transaction)? else { continue };
        let mut copy = only_open(image, transaction)?;
        match move_list(&copy, &mut list)? {
            Moves::None => {
                println!("  transaction {transaction}, home card {card}: in the way");
                print_locked(&mut copy)?;
            }
            Moves::Listed(_) => println!("  transaction {transaction}, home card {card}: not in the way"),
        }
    }
    Ok(())
}

/// Whether there are moves to make.
fn ask(image: &[u8]) -> bool {
    let mut list = [Move::default(); MOST_MOVES];
    let fault = |refusal| println!("move_list: {}: {refusal}", Answer::Refused(refusal));
    match move_list(image, &mut list) {
        Ok(Moves::Listed(moves)) => {
            println!("{} moves", moves.len());
            true
        }
        Ok(Moves::None) => {
            println!("no list of moves yet");
            print_those_in_the_way(image).unwrap_or_else(fault);
            false
        }
        Err(refusal) => {
            fault(refusal);
            false
        }
    }
}

// ---- the cases, one after the other ----

/// Of cards 0 to 3, block 1 lies on 1 and 2, block 2 on 2 and 3; then cards 2 and 3 are the newest placement.
/// Transactions 2 and 3 lock records of block 1, transaction 4 one of block 2.
fn lock(image: &mut [u8]) -> Result<(), Refusal> {
    start(image, Mask(0xF0))?;
    let mut first = Transaction::begin(image, Tran(1), Card(0))?;
    first.store(Rec(8), 100)?;
    first.store(Rec(16), 200)?;
    first.commit()?;
    place(image, Mask(0x30))?;
    for (transaction, home, record, value) in [(2, 2, 8, 101), (3, 3, 9, 102), (4, 3, 16, 201)] {
        begin(image, Tran(transaction), Card(home))?;
        store(image, Tran(transaction), Rec(record), value)?;
    }
    Ok(())
}

fn main() -> Result<(), Refusal> {
    let image = &mut vec![0; IMAGE_SIZE];
    assert!(!ask(image));
    lock(image)?;
    assert!(!ask(image));
    // The owner of 2 is asked to end it, and commits.
    commit(image, Tran(2))?;
    assert!(!ask(image));
    // The owner of 3 is gone: somebody rolls it back.
    rollback(image, Tran(3))?;
    assert!(ask(image));
    assert_eq!(fail(image, Card(2))?, Failed::Stopped);
    assert!(!ask(image));
    Ok(())
}
