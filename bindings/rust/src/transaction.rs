//! A transaction that is rolled back unless it is committed.

use crate::{begin, commit, delete, free_transaction, get, rollback, store, Card, Deletion, Rec, Refusal, Tran};
use core::mem::ManuallyDrop;

/// An open transaction on a borrowed image. Dropped without a [`commit`](Transaction::commit) it is rolled back.
///
/// ```
/// use nolpigat::{start, Card, Mask, Rec, Refusal, Tran, Transaction, IMAGE_SIZE};
///
/// fn main() -> Result<(), Refusal> {
///     let mut image = [0; IMAGE_SIZE];
///     start(&mut image, Mask(0xE0))?;
///     let mut first = Transaction::begin(&mut image, Tran(1), Card(0))?;
///     first.store(Rec(9), 4660)?;
///     first.commit()?;
///     let mut second = Transaction::begin(&mut image, Tran(1), Card(0))?;
///     second.store(Rec(9), 1)?;
///     drop(second); // rolled back
///     let third = Transaction::begin(&mut image, Tran(1), Card(0))?;
///     assert_eq!(third.get(Rec(9))?, Some(4660));
///     Ok(())
/// }
/// ```
///
/// A drop cannot answer, so it ignores a refusal of its rollback: none is left to do where the transaction is already
/// closed, as after a fail of its home through [`image`](Transaction::image).
#[derive(Debug)]
pub struct Transaction<'a> {
    image: &'a mut [u8],
    number: Tran,
}

impl<'a> Transaction<'a> {
    /// Begins the transaction at its home.
    ///
    /// Refused: as [`begin`].
    pub fn begin(image: &'a mut [u8], number: Tran, home: Card) -> Result<Transaction<'a>, Refusal> {
        begin(image, number, home)?;
        Ok(Transaction { image, number })
    }

    /// Begins the lowest transaction that is not open; none if all fifteen are open.
    ///
    /// Refused: as [`begin`].
    pub fn begin_free(image: &'a mut [u8], home: Card) -> Result<Option<Transaction<'a>>, Refusal> {
        match free_transaction(image)? {
            Some(number) => Transaction::begin(image, number, home).map(Some),
            None => Ok(None),
        }
    }

    /// Its number.
    pub fn number(&self) -> Tran {
        self.number
    }

    /// The image, for other calls while the transaction is open. One that closes this transaction, as a fail of its
    /// home does, ends it: the number must not be begun again while this guard lives, or the guard would work in, and
    /// roll back, the other transaction.
    pub fn image(&mut self) -> &mut [u8] {
        self.image
    }

    /// As [`get`].
    pub fn get(&self, record: Rec) -> Result<Option<u16>, Refusal> {
        get(self.image, self.number, record)
    }

    /// As [`store`].
    pub fn store(&mut self, record: Rec, value: u16) -> Result<(), Refusal> {
        store(self.image, self.number, record, value)
    }

    /// As [`delete`].
    pub fn delete(&mut self, record: Rec) -> Result<Deletion, Refusal> {
        delete(self.image, self.number, record)
    }

    /// As [`commit`]. Where it is refused nothing is committed, and the guard ends all the same.
    pub fn commit(self) -> Result<(), Refusal> {
        let mut ended = ManuallyDrop::new(self);
        let number = ended.number;
        commit(ended.image, number)
    }

    /// As [`rollback`], and tells a refusal, which a drop cannot.
    pub fn rollback(self) -> Result<(), Refusal> {
        let mut ended = ManuallyDrop::new(self);
        let number = ended.number;
        rollback(ended.image, number)
    }
}

impl Drop for Transaction<'_> {
    fn drop(&mut self) {
        // A refusal is ignored: the transaction is not open, and nothing is left to roll back.
        let _ = rollback(self.image, self.number);
    }
}
