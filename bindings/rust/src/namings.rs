//! Cards, blocks, records and transactions by their numbers, and sets of cards.

use crate::Refusal;
use core::fmt;

/// A naming: any number of the type, whose range the store checks.
macro_rules! naming {
    ($(#[$documentation:meta])* $name:ident($number:ty)) => {
        $(#[$documentation])*
        #[derive(Clone, Copy, Debug, Default, PartialEq, Eq, PartialOrd, Ord, Hash)]
        #[repr(transparent)]
        pub struct $name(pub $number);

        impl fmt::Display for $name {
            fn fmt(&self, f: &mut fmt::Formatter) -> fmt::Result {
                self.0.fmt(f)
            }
        }
    };
}

naming! {
    /// A card, 0 to 7. Others are refused with [`Refusal::Range`].
    Card(u8)
}

naming! {
    /// A block, 0 to 63. Others are refused with [`Refusal::Range`].
    Block(u8)
}

naming! {
    /// A record, 0 to 511. Others are refused with [`Refusal::Range`].
    Rec(u16)
}

naming! {
    /// A transaction, 1 to 15. Others are refused with [`Refusal::Range`].
    Tran(u8)
}

impl Rec {
    /// The block in which the record lies, if it is a record.
    pub const fn block(self) -> Option<Block> {
        if self.0 < 512 {
            Some(Block((self.0 / 8) as u8))
        } else {
            None
        }
    }
}

/// A set of cards. Card 0 is the highest bit of the byte.
#[derive(Clone, Copy, Debug, Default, PartialEq, Eq, Hash)]
#[repr(transparent)]
pub struct Mask(pub u8);

/// Cards of a cabinet.
const CARDS: u8 = 8;

impl Mask {
    /// The set of these cards, or [`Refusal::Range`] where one of them is above 7.
    ///
    /// ```
    /// use nolpigat::{Card, Mask};
    ///
    /// let mask = Mask::of(&[Card(0), Card(1), Card(2)])?;
    /// assert_eq!(mask, Mask(0xE0));
    /// assert!(mask.members().eq([Card(0), Card(1), Card(2)]));
    /// assert_eq!(mask.without(Card(1)).to_string(), "A0");
    /// # Ok::<(), nolpigat::Refusal>(())
    /// ```
    pub fn of(cards: &[Card]) -> Result<Mask, Refusal> {
        cards.iter().try_fold(Mask(0), |mask, card| mask.with(*card))
    }

    /// The byte with this card alone; 0 for a number above 7.
    const fn bit(card: Card) -> u8 {
        if card.0 < CARDS {
            0x80 >> card.0
        } else {
            0
        }
    }

    /// The set with the card too, or [`Refusal::Range`] where the card is above 7.
    pub const fn with(self, card: Card) -> Result<Mask, Refusal> {
        if card.0 < CARDS {
            Ok(Mask(self.0 | Mask::bit(card)))
        } else {
            Err(Refusal::Range)
        }
    }

    /// The set without the card.
    pub const fn without(self, card: Card) -> Mask {
        Mask(self.0 & !Mask::bit(card))
    }

    /// Whether the card is in the set.
    pub const fn contains(self, card: Card) -> bool {
        self.0 & Mask::bit(card) != 0
    }

    /// How many cards the set has.
    pub const fn len(self) -> usize {
        self.0.count_ones() as usize
    }

    /// Whether the set has no card.
    pub const fn is_empty(self) -> bool {
        self.0 == 0
    }

    /// The cards of the set, rising.
    pub fn members(self) -> impl Iterator<Item = Card> {
        (0..CARDS).map(Card).filter(move |card| self.contains(*card))
    }
}

/// Two hex digits, as in the listing.
impl fmt::Display for Mask {
    fn fmt(&self, f: &mut fmt::Formatter) -> fmt::Result {
        write!(f, "{:02X}", self.0)
    }
}
