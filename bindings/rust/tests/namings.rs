//! Masks, and the block of a record.

use nolpigat::*;

#[test]
fn every_mask_has_its_members() {
    for byte in 0..=u8::MAX {
        let mask = Mask(byte);
        let members: Vec<Card> = mask.members().collect();
        assert_eq!(members.len(), mask.len());
        assert_eq!(mask.is_empty(), members.is_empty());
        assert!(members.is_sorted());
        assert_eq!(Mask::of(&members), Ok(mask));
        assert!((0..=u8::MAX).map(Card).all(|card| mask.contains(card) == members.contains(&card)));
    }
}

#[test]
fn card_0_is_the_highest_bit() {
    assert_eq!(Mask::of(&[Card(0)]), Ok(Mask(0x80)));
    assert_eq!(Mask::of(&[Card(7), Card(7)]), Ok(Mask(0x01)));
    assert_eq!(Mask(0x0C).to_string(), "0C");
}

#[test]
fn with_and_without() {
    assert_eq!(Mask(0xA0).with(Card(1)), Ok(Mask(0xE0)));
    assert_eq!(Mask(0xA0).with(Card(8)), Err(Refusal::Range));
    assert_eq!(Mask(0xA0).without(Card(0)), Mask(0x20));
    assert_eq!(Mask(0xA0).without(Card(8)), Mask(0xA0));
}

#[test]
fn block_of_a_record() {
    assert_eq!(
        [0, 9, 511, 512].map(|record| Rec(record).block()),
        [Some(Block(0)), Some(Block(1)), Some(Block(63)), None]
    );
}
