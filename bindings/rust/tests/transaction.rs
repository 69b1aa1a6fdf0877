//! The guard: what is committed, and what a drop rolls back.

use nolpigat::*;
use std::error::Error;

fn started() -> Result<Vec<u8>, Refusal> {
    let mut image = vec![0; IMAGE_SIZE];
    start(&mut image, Mask(0xE0))?;
    Ok(image)
}

/// What a new transaction reads, after which nothing is open.
fn committed(image: &mut [u8], record: Rec) -> Result<Option<u16>, Refusal> {
    let reader = Transaction::begin_free(image, Card(0))?.expect("one is not open");
    assert_eq!(reader.number(), Tran(1), "an earlier transaction is still open");
    let value = reader.get(record)?;
    reader.rollback()?;
    Ok(value)
}

#[test]
fn commits() -> Result<(), Refusal> {
    let mut image = started()?;
    let mut guard = Transaction::begin(&mut image, Tran(1), Card(0))?;
    guard.store(Rec(9), 4660)?;
    assert_eq!(guard.get(Rec(9)), Ok(Some(4660)));
    guard.commit()?;
    assert_eq!(committed(&mut image, Rec(9))?, Some(4660));
    Ok(())
}

#[test]
fn rolls_back_when_dropped() -> Result<(), Refusal> {
    let mut image = started()?;
    let before = image.clone();
    let mut guard = Transaction::begin(&mut image, Tran(1), Card(0))?;
    guard.store(Rec(9), 4660)?;
    drop(guard);
    assert_eq!(home(&image, Tran(1))?, None);
    assert_eq!(committed(&mut image, Rec(9))?, None);
    assert_eq!(image[..32], before[..32]);
    Ok(())
}

/// The second store is refused, and `?` leaves the function with the guard.
fn two_stores(image: &mut [u8]) -> Result<(), Refusal> {
    let mut guard = Transaction::begin(image, Tran(1), Card(0))?;
    guard.store(Rec(9), 1)?;
    guard.store(Rec(17), 65_535)?;
    guard.commit()
}

#[test]
fn rolls_back_where_an_error_leaves_the_function() -> Result<(), Refusal> {
    let mut image = started()?;
    assert_eq!(two_stores(&mut image), Err(Refusal::Range));
    assert_eq!(committed(&mut image, Rec(9))?, None);
    Ok(())
}

#[test]
fn deletes() -> Result<(), Refusal> {
    let mut image = started()?;
    let mut guard = Transaction::begin(&mut image, Tran(1), Card(0))?;
    assert_eq!(guard.delete(Rec(9)), Ok(Deletion::Absent));
    guard.store(Rec(9), 1)?;
    assert_eq!(guard.delete(Rec(9)), Ok(Deletion::Pending));
    guard.commit()?;
    assert_eq!(committed(&mut image, Rec(9))?, None);
    Ok(())
}

/// After a fail of the home the transaction is closed: its calls are refused, and so is the drop's rollback.
#[test]
fn lost_with_its_home() -> Result<(), Refusal> {
    let mut image = started()?;
    let mut guard = Transaction::begin(&mut image, Tran(1), Card(1))?;
    guard.store(Rec(9), 4660)?;
    assert_eq!(fail(guard.image(), Card(1))?, Failed::Placed(Mask(0xA0)));
    assert_eq!(guard.get(Rec(9)), Err(Refusal::NotOpen));
    drop(guard);
    let guard = Transaction::begin(&mut image, Tran(1), Card(0))?;
    assert_eq!(guard.get(Rec(9)), Ok(None));
    Ok(())
}

#[test]
fn a_refused_commit_is_told() -> Result<(), Refusal> {
    let mut image = started()?;
    let mut guard = Transaction::begin(&mut image, Tran(1), Card(1))?;
    assert_eq!(fail(guard.image(), Card(1))?, Failed::Placed(Mask(0xA0)));
    assert_eq!(guard.commit(), Err(Refusal::NotOpen));
    Ok(())
}

/// A refusal is an error like others.
#[test]
fn refusal_as_an_error() {
    fn fails() -> Result<(), Box<dyn Error>> {
        Transaction::begin(&mut [], Tran(1), Card(0))?;
        Ok(())
    }
    assert_eq!(fails().expect_err("no image").to_string(), "an image has another length than the call takes");
}
