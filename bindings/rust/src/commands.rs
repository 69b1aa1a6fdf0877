//! Commands: five bytes that ask for a call, from their fields and back.

use crate::{done, ffi, Block, Card, Mask, Rec, Refusal, Tran, COMMAND_SIZE};

/// The call that a command asks for. The number is the operation's in the command.
#[derive(Clone, Copy, Debug, PartialEq, Eq, Hash)]
#[repr(u8)]
pub enum Operation {
    /// [`start`](crate::start)
    Start = 0,
    /// [`begin`](crate::begin)
    Begin = 1,
    /// [`get`](crate::get)
    Get = 2,
    /// [`store`](crate::store)
    Store = 3,
    /// [`delete`](crate::delete)
    Delete = 4,
    /// [`commit`](crate::commit)
    Commit = 5,
    /// [`rollback`](crate::rollback)
    Rollback = 6,
    /// [`fit`](crate::fit)
    Fit = 7,
    /// [`withdraw`](crate::withdraw)
    Withdraw = 8,
    /// [`place`](crate::place)
    Place = 9,
    /// [`fail`](crate::fail)
    Fail = 10,
    /// [`move_block`](crate::move_block)
    Move = 11,
    /// [`settle`](crate::settle)
    Settle = 12,
    /// [`state`](crate::state)
    State = 13,
    /// [`load`](crate::load)
    Load = 14,
}

/// All operations, each at its number.
const OPERATIONS: [Operation; 15] = [
    Operation::Start,
    Operation::Begin,
    Operation::Get,
    Operation::Store,
    Operation::Delete,
    Operation::Commit,
    Operation::Rollback,
    Operation::Fit,
    Operation::Withdraw,
    Operation::Place,
    Operation::Fail,
    Operation::Move,
    Operation::Settle,
    Operation::State,
    Operation::Load,
];

/// The fields of a command. Those that its operation lacks are zero, as [`Command::new`] has them all.
#[derive(Clone, Copy, Debug, PartialEq, Eq, Hash)]
pub struct Command {
    /// The call.
    pub operation: Operation,
    /// Four bits: of begin, get, store, delete, commit and rollback.
    pub transaction: Tran,
    /// Four bits: of begin (the home), fit, withdraw, fail, move and load.
    pub card: Card,
    /// Twelve bits: the record of get, store and delete, the block of move.
    pub number: u16,
    /// Sixteen bits: the value of store, the mask of start and place, which is below 256.
    pub value: u16,
}

impl Command {
    /// A command of this operation with no other field set.
    pub const fn new(operation: Operation) -> Command {
        Command { operation, transaction: Tran(0), card: Card(0), number: 0, value: 0 }
    }

    /// With the transaction.
    pub const fn transaction(self, transaction: Tran) -> Command {
        Command { transaction, ..self }
    }

    /// With the card.
    pub const fn card(self, card: Card) -> Command {
        Command { card, ..self }
    }

    /// With the record.
    pub const fn record(self, record: Rec) -> Command {
        Command { number: record.0, ..self }
    }

    /// With the block.
    pub const fn block(self, block: Block) -> Command {
        Command { number: block.0 as u16, ..self }
    }

    /// With the value.
    pub const fn value(self, value: u16) -> Command {
        Command { value, ..self }
    }

    /// With the mask.
    pub const fn mask(self, mask: Mask) -> Command {
        Command { value: mask.0 as u16, ..self }
    }

    /// The command's bytes.
    ///
    /// Refused: [`Malformed`](Refusal::Malformed) if a field is set that the operation lacks, or is too wide.
    ///
    /// ```
    /// use nolpigat::{Card, Command, Operation, Refusal, Tran};
    ///
    /// let begin = Command::new(Operation::Begin).transaction(Tran(1)).card(Card(2));
    /// assert_eq!(begin.write()?, [0x11, 0x20, 0, 0, 0]);
    /// assert_eq!(Command::read(&[0x11, 0x20, 0, 0, 0])?, begin);
    /// assert_eq!(Command { value: 7, ..begin }.write(), Err(Refusal::Malformed));
    /// # Ok::<(), Refusal>(())
    /// ```
    pub fn write(&self) -> Result<[u8; COMMAND_SIZE], Refusal> {
        let mut bytes = [0; COMMAND_SIZE];
        let Command { operation, transaction, card, number, value } = *self;
        // SAFETY: pointer and length are those of the array, which is borrowed for the whole call.
        let code = unsafe {
            ffi::nolpigat_write_command(
                bytes.as_mut_ptr(),
                bytes.len(),
                operation as u8,
                transaction.0,
                card.0,
                number,
                value,
            )
        };
        done(code).map(|()| bytes)
    }

    /// The fields of a command's bytes.
    ///
    /// Refused: [`Malformed`](Refusal::Malformed) where [`command`](crate::command) is, also for another length than
    /// [`COMMAND_SIZE`].
    pub fn read(bytes: &[u8]) -> Result<Command, Refusal> {
        let (mut operation, mut transaction, mut card, mut number, mut value) = (0, 0, 0, 0, 0);
        // SAFETY: pointer and length are those of one slice, borrowed for the whole call; the others are those of five
        // local numbers.
        let code = unsafe {
            ffi::nolpigat_read_command(
                bytes.as_ptr(),
                bytes.len(),
                &mut operation,
                &mut transaction,
                &mut card,
                &mut number,
                &mut value,
            )
        };
        done(code)?;
        let operation = *OPERATIONS.get(usize::from(operation)).ok_or(Refusal::Unknown(code))?;
        Ok(Command { operation, transaction: Tran(transaction), card: Card(card), number, value })
    }
}
