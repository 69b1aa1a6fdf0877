//! Five-byte commands: operation (4 bits), transaction (4), card (4), record or
//! block (12), value or mask (16).

use crate::calls::{Call, Numbers};

pub const COMMAND_BYTES: usize = 5;

/// The five fields of a command, each as wide as the caller likes.
#[derive(Clone, Copy, Debug, PartialEq, Eq)]
pub struct Fields {
    pub operation: u8,
    pub transaction: u8,
    pub card: u8,
    pub number: u16,
    pub value: u16,
}

impl Fields {
    pub fn unpack(bytes: &[u8; COMMAND_BYTES]) -> Fields {
        Fields {
            operation: bytes[0] >> 4,
            transaction: bytes[0] & 15,
            card: bytes[1] >> 4,
            number: (bytes[1] as u16 & 15) << 8 | bytes[2] as u16,
            value: (bytes[3] as u16) << 8 | bytes[4] as u16,
        }
    }

    /// None when a number is too wide for its field.
    pub fn pack(&self) -> Option<[u8; COMMAND_BYTES]> {
        if self.operation > 15 || self.transaction > 15 || self.card > 15 || self.number > 4095 {
            return None;
        }
        Some([
            self.operation << 4 | self.transaction,
            self.card << 4 | (self.number >> 8) as u8,
            self.number as u8,
            (self.value >> 8) as u8,
            self.value as u8,
        ])
    }

    /// The fields of a call; those that it lacks are zero.
    pub fn of(call: &Call) -> Fields {
        let (operation, transaction, card, number, value) = match *call {
            Call::Start { mask } => (0, 0, 0, 0, mask as u16),
            Call::Begin { transaction, home } => (1, transaction, home, 0, 0),
            Call::Get { transaction, record } => (2, transaction, 0, record, 0),
            Call::Store { transaction, record, value } => (3, transaction, 0, record, value),
            Call::Delete { transaction, record } => (4, transaction, 0, record, 0),
            Call::Commit { transaction } => (5, transaction, 0, 0, 0),
            Call::Rollback { transaction } => (6, transaction, 0, 0, 0),
            Call::Fit { card } => (7, 0, card, 0, 0),
            Call::Withdraw { card } => (8, 0, card, 0, 0),
            Call::Place { mask } => (9, 0, 0, 0, mask as u16),
            Call::Fail { card } => (10, 0, card, 0, 0),
            Call::Move { card, block } => (11, 0, card, block, 0),
            Call::Settle => (12, 0, 0, 0, 0),
            Call::State => (13, 0, 0, 0, 0),
            Call::Load { card } => (14, 0, card, 0, 0),
        };
        Fields { operation, transaction, card, number, value }
    }

    /// The call of the operation, from the fields that it has and the low byte
    /// of a mask. None for operation 15.
    fn call(&self) -> Option<Call> {
        let Fields { operation, transaction, card, number, value } = *self;
        let mask = value as u8;
        Call::of(operation, &Numbers { transaction, card, record: number, block: number, value, mask })
    }

    /// Zero in the fields that the operation lacks and in a mask's high byte.
    /// Operation 15 keeps all.
    pub fn named(self) -> Fields {
        self.call().map_or(self, |call| Fields::of(&call))
    }
}

/// None when malformed.
pub fn read_command(bytes: &[u8]) -> Option<Call> {
    let fields = Fields::unpack(bytes.try_into().ok()?);
    if fields.named() == fields { fields.call() } else { None }
}

/// False when refused; the bytes are then as found.
pub fn write_command(call: &Call, bytes: &mut [u8]) -> bool {
    match Fields::of(call).pack() {
        Some(packed) if bytes.len() == COMMAND_BYTES => {
            bytes.copy_from_slice(&packed);
            true
        }
        _ => false,
    }
}
