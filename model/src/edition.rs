//! Which rules are in force. Those of earlier deliveries are here to make older images by their own calls.

use crate::control::Control;
use crate::image::{LENGTH, OLDER_LENGTH, OLDEST_LENGTH};
use crate::sites::Placement;

/// The value that feeder drives read as a broken wire.
pub const BROKEN_WIRE: u16 = 65_535;

/// A place with so many active is refused; only a failure adds the fourth.
const MOST_PLACED: usize = 3;

/// From this serial on no place is taken. Failures go on, one serial for each member of the newest placement at most.
pub const SERIALS_END: u32 = 16_777_000;

#[derive(Clone, Copy, Debug, PartialEq, Eq)]
pub enum Edition {
    /// The base alone: byte 7 is zero, every placement has the old choice of sites, protected means that one
    /// placement is active, and store takes every value.
    Base,
    /// The base with requests A.1 to A.4: byte 7 marks the placements that choose their sites by rails, and protected
    /// means that no single failure would stop the store. A.3 and A.4 change no rule of the
    /// fifteen calls.
    Rails,
    /// As `Rails`, with A.5: 65,535 is outside the range of a value to store.
    BelowWire,
    /// As `BelowWire`, with A.6: the image is longer, and a placement can have its sites from a plant's table.
    ByTables,
    /// As `ByTables`, with A.7: placements have a serial, card tables a stamp, and a stopped store takes cards back.
    Today,
}

impl Edition {
    /// The earlier editions by name.
    pub const NAMES: [(&'static str, Edition); 4] = [
        ("base", Edition::Base),
        ("rails", Edition::Rails),
        ("below-wire", Edition::BelowWire),
        ("by-tables", Edition::ByTables),
    ];

    pub fn named(name: &str) -> Option<Edition> {
        Edition::NAMES.iter().find(|(known, _)| *known == name).map(|(_, edition)| *edition)
    }

    /// The length of an image.
    pub fn length(self) -> usize {
        match self {
            Edition::Base | Edition::Rails | Edition::BelowWire => OLDEST_LENGTH,
            Edition::ByTables => OLDER_LENGTH,
            Edition::Today => LENGTH,
        }
    }

    /// A placement can have its sites from a plant's table.
    pub fn has_tables(self) -> bool {
        matches!(self, Edition::ByTables | Edition::Today)
    }

    /// Placements have a serial, and card tables a stamp.
    pub fn has_serials(self) -> bool {
        self == Edition::Today
    }

    /// Why no further placement is taken, by a place or by a table.
    pub fn no_room(self, active: usize, serial: u32) -> Option<u8> {
        if active >= MOST_PLACED {
            return Some(10);
        }
        (self.has_serials() && serial >= SERIALS_END).then_some(20)
    }

    /// The placement that start, place and fail write.
    pub fn placement(self, mask: u8) -> Placement {
        if self == Edition::Base { Placement::chained(mask) } else { Placement::by_rails(mask) }
    }

    /// The bits that byte 7 can have with this many active placements.
    pub fn marks(self, active: usize) -> u8 {
        let rails = !(0xFF >> active);
        match self {
            Edition::Base => 0,
            Edition::Rails | Edition::BelowWire => rails,
            Edition::ByTables | Edition::Today => rails | rails >> 4,
        }
    }

    /// Place refuses the mask of this newest placement.
    pub fn refuses_again(self, newest: Placement) -> bool {
        self == Edition::Base || newest.is_by_rails()
    }

    /// State says protected of this running store.
    pub fn protected(self, control: &Control) -> bool {
        match self {
            Edition::Base => control.placements.len() == 1,
            _ => control.protected(),
        }
    }

    /// The value is in the range of those that store takes.
    pub fn stores(self, value: u16) -> bool {
        match self {
            Edition::Base | Edition::Rails => true,
            _ => value != BROKEN_WIRE,
        }
    }
}
