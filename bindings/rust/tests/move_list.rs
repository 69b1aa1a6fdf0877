//! The list of moves: what it answers, and what it leaves of the lent entries.

use nolpigat::*;

/// No move has these numbers.
const LENT: Move = Move { card: Card(0xEE), block: Block(0xDD) };

/// Cards 0 to 3, the first record of every block committed, then this placement added.
fn placed(mask: Mask) -> Vec<u8> {
    let mut image = vec![0; IMAGE_SIZE];
    assert_eq!(start(&mut image, Mask(0xF0)), Ok(()));
    assert_eq!(begin(&mut image, Tran(1), Card(0)), Ok(()));
    for block in 0..64 {
        assert_eq!(store(&mut image, Tran(1), Rec(8 * block), block), Ok(()));
    }
    assert_eq!(commit(&mut image, Tran(1)), Ok(()));
    assert_eq!(place(&mut image, mask), Ok(()));
    image
}

/// Block b is on cards b and b + 1, of 0 to 3, and goes to 2 and 3.
fn moves_to_two_and_three() -> Vec<Move> {
    let from = |block: u8| [&[0, 1][..], &[1], &[], &[0]][usize::from(block % 4)];
    (0..64)
        .flat_map(|block| from(block).iter().map(move |card| Move { card: Card(*card), block: Block(block) }))
        .collect()
}

#[test]
fn nothing_to_move() {
    let mut image = placed(Mask(0x30));
    assert_eq!(start(&mut image, Mask(0xF0)), Ok(()));
    assert_eq!(move_list(&image, &mut []), Ok(Moves::Listed(&[])));
    let mut list = [LENT; 3];
    assert_eq!(move_list(&image, &mut list), Ok(Moves::Listed(&[])));
    assert_eq!(list, [LENT; 3]);
}

#[test]
fn the_moves_settle() {
    let mut image = placed(Mask(0x30));
    let moves = moves_to_two_and_three();
    let mut list = [LENT; MOST_MOVES + 1];
    assert_eq!(move_list(&image, &mut list), Ok(Moves::Listed(&moves)));
    assert!(list[64..].iter().all(|entry| *entry == LENT));
    for Move { card, block } in moves {
        assert_eq!(settle(&mut image), Err(Refusal::Unsettled));
        assert!(move_block(&mut image, card, block).is_ok());
    }
    assert_eq!(settle(&mut image), Ok(1));
}

#[test]
fn short_lists_stay_as_lent() {
    let image = placed(Mask(0x30));
    let mut list = [LENT; 64];
    for room in [0, 1, 63] {
        assert_eq!(move_list(&image, &mut list[..room]), Err(Refusal::List));
        assert_eq!(list, [LENT; 64]);
    }
    assert_eq!(move_list(&image, &mut list), Ok(Moves::Listed(&moves_to_two_and_three())));
}

#[test]
fn none_while_a_record_is_locked() {
    let mut image = placed(Mask(0x30));
    assert_eq!(begin(&mut image, Tran(2), Card(2)), Ok(()));
    // Block 2 is on cards 2 and 3 already, block 1 is not.
    assert_eq!(store(&mut image, Tran(2), Rec(16), 1), Ok(()));
    assert!(matches!(move_list(&image, &mut [LENT; 64]), Ok(Moves::Listed(_))));
    assert_eq!(store(&mut image, Tran(2), Rec(8), 1), Ok(()));
    let mut list = [LENT; 64];
    for room in [0, 63, 64] {
        assert_eq!(move_list(&image, &mut list[..room]), Ok(Moves::None));
        assert_eq!(list, [LENT; 64]);
    }
}

#[test]
fn refused_when_stopped() {
    let mut image = placed(Mask(0x30));
    assert_eq!(fail(&mut image, Card(2)), Ok(Failed::Stopped));
    let mut list = [LENT; 64];
    assert_eq!(move_list(&image, &mut list), Err(Refusal::Stopped));
    assert_eq!(list, [LENT; 64]);
}
