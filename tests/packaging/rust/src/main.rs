//! A user's program: prints a record that it stores.

use nolpigat::{start, Card, Mask, Rec, Refusal, Tran, Transaction, IMAGE_SIZE};

fn main() -> Result<(), Refusal> {
    let mut image = [0; IMAGE_SIZE];
    start(&mut image, Mask(0xE0))?;
    let mut transaction = Transaction::begin(&mut image, Tran(1), Card(0))?;
    transaction.store(Rec(9), 1234)?;
    println!("value {}", transaction.get(Rec(9))?.unwrap_or_default());
    transaction.commit()
}
