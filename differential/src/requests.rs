//! Random calls of any arguments, and commands of any bytes.

use model::commands::{read_command, Fields, COMMAND_BYTES};
use model::edition::BROKEN_WIRE;
use model::images::{random_call, random_numbers};
use model::random::Random;
use model::tally::OPERATIONS;
use model::Call;

/// More bytes than any command has.
const MOST_BYTES: usize = 12;

const STORE_OF_65535: &str = "well-formed command of a store of 65535";
const BLOCK_OVER_255: &str = "command of a block over 255";
const OPERATION_15: &str = "command of operation 15";
const MASK_OVER_255: &str = "command of a mask over 255";
const FIELD_TOO_MANY: &str = "command with a field that it lacks";
const LENGTHS: [&str; 6] = [
    "command of 0 bytes", "command of 1 byte", "command of 2 bytes", "command of 3 bytes", "command of 4 bytes",
    "command of more than 5 bytes",
];

fn well_formed(operation: usize) -> String {
    let (name, ..) = OPERATIONS[operation];
    format!("well-formed command of {name}")
}

/// Classes of a command's bytes that a run must meet.
pub fn command_classes() -> Vec<String> {
    let mut all: Vec<String> = (0..15).map(well_formed).collect();
    all.extend([STORE_OF_65535, BLOCK_OVER_255, OPERATION_15, MASK_OVER_255, FIELD_TOO_MANY].map(String::from));
    all.extend(LENGTHS.map(String::from));
    all
}

pub fn command_class(bytes: &[u8]) -> String {
    let Ok(five) = <&[u8; COMMAND_BYTES]>::try_from(bytes) else {
        return LENGTHS[bytes.len().min(LENGTHS.len() - 1)].into();
    };
    let fields = Fields::unpack(five);
    match (read_command(bytes), fields.operation) {
        (Some(Call::Store { value: BROKEN_WIRE, .. }), _) => STORE_OF_65535.into(),
        (Some(Call::Move { block: 256.., .. }), _) => BLOCK_OVER_255.into(),
        (Some(_), operation) => well_formed(operation.into()),
        (None, 15) => OPERATION_15.into(),
        (None, 0 | 9) if fields.value > 255 => MASK_OVER_255.into(),
        (None, _) => FIELD_TOO_MANY.into(),
    }
}

/// Arguments at the ends that a run must meet.
pub const RECORD_ENDS: [(u16, &str); 5] = [
    (0, "record 0"), (511, "record 511"), (512, "record 512"), (4095, "record 4095"), (65535, "record 65535"),
];

/// Values to store at the ends that a run must meet.
pub const VALUE_ENDS: [(u16, &str); 3] = [(0, "value 0"), (65534, "value 65534"), (65535, "value 65535")];

/// Makes calls so that arguments of one byte take every value.
#[derive(Default)]
pub struct Requests {
    /// The next values, by operation and place of the argument.
    next: [[u8; 2]; 15],
    /// The next card of a return.
    next_returned: u8,
}

impl Requests {
    pub fn call(&mut self, random: &mut Random) -> Call {
        let operation = random.below(15) as u8;
        let mut numbers = random_numbers(random);
        numbers.block %= 256;
        if random.chance(250) {
            let place = random.below(2);
            let value = &mut self.next[operation as usize][place];
            *value = value.wrapping_add(1);
            // Of two arguments of one byte, the card of a begin and the block of a move come second.
            match (operation, place) {
                (1, 0) | (2..=6, _) => numbers.transaction = *value,
                (11, 1) => numbers.block = (*value).into(),
                _ => (numbers.card, numbers.mask) = (*value, *value),
            }
        }
        Call::of(operation, &numbers).expect("operations 0 to 14")
    }

    /// Most often a card in its range.
    pub fn returned(&mut self, random: &mut Random) -> u8 {
        if random.chance(900) {
            return random.below(8) as u8;
        }
        self.next_returned = self.next_returned.wrapping_add(1);
        self.next_returned
    }
}

/// The fields of a random call, each cut to its width.
fn random_fields(random: &mut Random) -> Fields {
    let mut fields = Fields::of(&random_call(random));
    fields.transaction &= 15;
    fields.card &= 15;
    fields.number &= 4095;
    // A block that is in its range if its high bits are lost.
    if fields.operation == 11 && random.chance(200) {
        fields.number |= 0x100 << random.below(4);
    }
    fields
}

pub fn random_command(random: &mut Random) -> Vec<u8> {
    let mut fields = random_fields(random);
    match random.below(10) {
        0 => {
            let mut bytes = vec![0; COMMAND_BYTES];
            random.fill(&mut bytes);
            return bytes;
        }
        1 => {
            let mut bytes = fields.pack().expect("fields of their widths").to_vec();
            bytes.resize(random.below(MOST_BYTES + 1), random.byte());
            return bytes;
        }
        2 => fields.operation = 15,
        3 => fields.transaction = random.below(16) as u8,
        4 => fields.card = random.below(16) as u8,
        5 => fields.value |= 1 << random.below(16),
        _ => {}
    }
    fields.pack().expect("fields of their widths").to_vec()
}
