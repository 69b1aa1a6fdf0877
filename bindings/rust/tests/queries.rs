//! The queries, on a store whose cards and transactions are known.

use nolpigat::*;

/// Cards 0, 1 and 2; record 9 committed on cards 1 and 2; transaction 3 open at card 2; then card 1 failed.
fn failed_one() -> Result<Vec<u8>, Refusal> {
    let mut image = vec![0; IMAGE_SIZE];
    start(&mut image, Mask(0xE0))?;
    begin(&mut image, Tran(1), Card(0))?;
    store(&mut image, Tran(1), Rec(9), 4660)?;
    commit(&mut image, Tran(1))?;
    begin(&mut image, Tran(3), Card(2))?;
    assert_eq!(fail(&mut image, Card(1))?, Failed::Placed(Mask(0xA0)));
    Ok(image)
}

#[test]
fn cards_and_placements() -> Result<(), Refusal> {
    let image = failed_one()?;
    assert!(!stopped(&image)?);
    assert_eq!(placement_count(&image)?, 2);
    let masks = [0, 1, 2, 3].map(|index| placement(&image, index));
    assert_eq!(masks, [Ok(Some(Mask(0xE0))), Ok(Some(Mask(0xA0))), Ok(None), Ok(None)]);
    assert_eq!(working(&image)?, Mask(0xA0));
    assert_eq!(failed(&image)?, Mask(0x40));
    Ok(())
}

#[test]
fn transactions() -> Result<(), Refusal> {
    let mut image = failed_one()?;
    assert_eq!(home(&image, Tran(3))?, Some(Card(2)));
    assert_eq!(home(&image, Tran(1))?, None);
    for expected in [1, 2, 4, 5, 6, 7, 8, 9, 10, 11, 12, 13, 14, 15] {
        let lowest = free_transaction(&image)?.expect("one is not open");
        assert_eq!(lowest, Tran(expected));
        begin(&mut image, lowest, Card(0))?;
    }
    assert_eq!(free_transaction(&image)?, None);
    assert!(Transaction::begin_free(&mut image, Card(0))?.is_none());
    Ok(())
}

#[test]
fn cards_of_a_record() -> Result<(), Refusal> {
    let mut image = failed_one()?;
    assert_eq!((source(&image, Tran(3), Rec(9))?, holders(&image, Tran(3), Rec(9))?), (Some(Card(2)), 1));
    assert_eq!(move_block(&mut image, Card(2), Block(1))?, 1);
    assert_eq!(holders(&image, Tran(3), Rec(9))?, 2);
    assert_eq!((source(&image, Tran(3), Rec(400))?, holders(&image, Tran(3), Rec(400))?), (None, 0));
    Ok(())
}

#[test]
fn after_a_stop() -> Result<(), Refusal> {
    let mut image = failed_one()?;
    assert_eq!(fail(&mut image, Card(2))?, Failed::Stopped);
    assert!(stopped(&image)?);
    assert_eq!((placement_count(&image)?, placement(&image, 1)?), (2, Some(Mask(0xA0))));
    assert_eq!((working(&image)?, failed(&image)?), (Mask(0x80), Mask(0x60)));
    assert_eq!((home(&image, Tran(3))?, free_transaction(&image)?), (None, Some(Tran(1))));
    Ok(())
}
