//! Commands out of the ordinary: malformed, changed by bits, noise, numbers at
//! their ends, and calls that aim at one refusal.

use super::maker::{bytes_of, Maker};
use crate::calls::{perform_by, Answer, Call};
use crate::commands::{read_command, Fields, COMMAND_BYTES};
use crate::control::Control;
use crate::sites::members;

impl Maker {
    pub(super) fn malformed(&mut self) -> [u8; COMMAND_BYTES] {
        for _ in 0..20 {
            let mut bytes = bytes_of(&self.ordinary());
            match self.random.below(4) {
                0 => bytes[0] |= 0xF0,
                1 => bytes[3] |= 1 << self.random.below(8),
                2 => bytes[1] |= (1 + self.random.below(15) as u8) << 4,
                _ => self.flip_a_bit(&mut bytes),
            }
            if read_command(&bytes).is_none() {
                return bytes;
            }
        }
        [0xFF; COMMAND_BYTES]
    }

    fn flip_a_bit(&mut self, bytes: &mut [u8; COMMAND_BYTES]) {
        bytes[self.random.below(COMMAND_BYTES)] ^= 1 << self.random.below(8);
    }

    /// An ordinary command, now and then with one or two bits changed.
    pub(super) fn flipped(&mut self) -> [u8; COMMAND_BYTES] {
        let mut bytes = bytes_of(&self.ordinary());
        if self.random.chance(300) {
            for _ in 0..1 + self.random.below(2) {
                self.flip_a_bit(&mut bytes);
            }
        }
        bytes
    }

    /// Bytes as they come, named fields as they come, or an ordinary command.
    pub(super) fn noise(&mut self) -> [u8; COMMAND_BYTES] {
        let mut bytes = [0; COMMAND_BYTES];
        self.random.fill(&mut bytes);
        match self.random.below(100) {
            0..=34 => bytes,
            35..=84 => self.noisy_fields(&bytes),
            _ => bytes_of(&self.ordinary()),
        }
    }

    /// Most numbers fall into their ranges; few fails and starts.
    fn noisy_fields(&mut self, bytes: &[u8; COMMAND_BYTES]) -> [u8; COMMAND_BYTES] {
        let mut fields = Fields::unpack(bytes).named();
        if self.random.chance(800) {
            fields.card &= 7;
            fields.number &= if fields.operation == 11 { 63 } else { 511 };
        }
        if matches!(fields.operation, 0 | 10) && self.running().is_some() && self.random.chance(850) {
            fields = Fields::of(&Call::State);
        }
        fields.pack().unwrap()
    }

    /// Numbers at and beyond the ends of their ranges.
    pub(super) fn edge(&mut self) -> [u8; COMMAND_BYTES] {
        let operation = self.random.below(16) as u8;
        let open = self.running().map_or(Vec::new(), |control| control.open());
        let open_one = self.random.any_of(&open).unwrap_or(1);
        let transaction = self.random.one_of(&[0, 1, 15, open_one, open_one, open_one]);
        let card = self.random.one_of(&[0, 1, 6, 7, 7, 8, 9, 15]);
        let record = self.random.one_of(&[0, 7, 8, 255, 256, 503, 504, 511, 511, 512, 513, 1023, 4095]);
        let block = self.random.one_of(&[0, 1, 31, 62, 63, 63, 64, 65, 511, 512, 4095]);
        let value = self.random.one_of(&[0, 1, 0x7FFF, 0x8000, 65533, 65534, 65534, 65535, 65535]);
        let mask = self.random.one_of(&[
            0x00, 0x80, 0x01, 0x10, 0xC0, 0x81, 0x03, 0x18, 0xFF, 0xFE, 0x7F, 0x100, 0x180, 0x1C0, 0x8000, 0xFFFF,
        ]);
        let number = if operation == 11 { block } else { record };
        let mut fields = Fields { operation, transaction, card, number, value }.named();
        match operation {
            // A start ends all that came before it, so a good one is rare.
            0 if self.random.chance(700) => fields.value = self.random.one_of(&[0, 0x80, 1, 0x100, 0x1C0]),
            0 | 9 => fields.value = mask,
            // A fail of a working card ends a small cabinet soon.
            10 if self.random.chance(600) => fields.card = self.random.one_of(&[8, 9, 15]),
            _ => {}
        }
        fields.pack().unwrap()
    }

    /// Aims at one refusal number, or prepares for it.
    pub(super) fn aimed(&mut self) -> [u8; COMMAND_BYTES] {
        let Some(control) = self.running() else { return bytes_of(&self.ordinary()) };
        let target = 3 + self.random.below(13) as u8;
        if target == 15 {
            return self.malformed();
        }
        let call = self.refused(target, &control).unwrap_or_else(|| self.towards(target, &control));
        bytes_of(&call)
    }

    /// A call that the store refuses with the number, if one is found soon.
    fn refused(&mut self, number: u8, control: &Control) -> Option<Call> {
        for _ in 0..80 {
            let operation = 1 + self.random.below(14) as u8;
            let call = if self.random.chance(600) {
                self.careful(operation, control)
            } else {
                self.careless(operation)
            };
            if perform_by(self.edition, &mut self.image.clone(), &call) == Answer::Refused(number) {
                return Some(call);
            }
        }
        None
    }

    /// A call on the way to a store that refuses with the number.
    fn towards(&mut self, number: u8, control: &Control) -> Call {
        if number == 14 && self.random.chance(400) {
            self.plan.clear();
        }
        if self.plan.is_empty() {
            match number {
                4 if self.random.chance(150) => {
                    return Call::Fail { card: self.random.one_of(&members(control.working)) as u8 };
                }
                10 => self.plan_four(control),
                14 => self.plan_homeless(control),
                _ => {}
            }
        }
        self.ordinary()
    }

    /// Each call once, refused 2, and a start refused 9, in any order.
    pub(super) fn calls_before_a_start(&mut self) -> Vec<Call> {
        let mut calls: Vec<Call> = (1..15).map(|operation| self.careless(operation)).collect();
        calls.push(Call::Start { mask: 0x40 });
        self.random.shuffle(&mut calls);
        calls
    }
}
