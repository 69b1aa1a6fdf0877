//! Placing by a table: what it leaves, what follows it, and each of its refusals.

use nolpigat::*;

/// Where the pairs of placements by table are kept.
const KEPT: usize = IMAGE_SIZE - 4 * 48;

fn line(first: u8, last: u8, cards: [u8; 2]) -> Line {
    Line { first: Block(first), last: Block(last), cards: cards.map(Card) }
}

/// Blocks 0 to 9 on cards 6 and 1, the others on 0 and 5.
fn table() -> [Line; 2] {
    [line(10, 63, [0, 5]), line(0, 9, [6, 1])]
}

/// One line a block, this many.
fn one_by_one(number: u8) -> Vec<Line> {
    (0..number).map(|block| line(block, block, [0, 1])).collect()
}

/// Cards 0 to 6, and the first record of every block committed.
fn filled() -> Vec<u8> {
    let mut image = vec![0; IMAGE_SIZE];
    assert_eq!(start(&mut image, Mask(0xFE)), Ok(()));
    assert_eq!(begin(&mut image, Tran(1), Card(0)), Ok(()));
    for block in 0..64 {
        assert_eq!(store(&mut image, Tran(1), Rec(8 * block), block), Ok(()));
    }
    assert_eq!(commit(&mut image, Tran(1)), Ok(()));
    image
}

fn move_all(image: &mut [u8]) {
    let mut list = [Move::default(); MOST_MOVES];
    let Ok(Moves::Listed(moves)) = move_list(image, &mut list) else { panic!("no list") };
    for Move { card, block } in moves {
        assert!(move_block(image, *card, *block).is_ok());
    }
}

fn assert_refused(image: &[u8], lines: &[Line], refusal: Refusal) {
    let mut after = image.to_vec();
    assert_eq!(place_by_table(&mut after, lines), Err(refusal));
    assert!(after == image, "a refused call changed the image");
}

#[test]
fn blocks_go_to_the_table_and_back_to_rails() {
    let mut image = filled();
    assert_eq!(place_by_table(&mut image, &table()), Ok(()));
    assert_eq!(image[..8], [0x20, 0xFE, 0xC6, 0, 0, 0xFE, 0, 0x84]);
    assert_eq!(settle(&mut image), Err(Refusal::Unsettled));
    move_all(&mut image);
    assert_eq!(settle(&mut image), Ok(1));
    assert_eq!(image[..8], [0x10, 0xC6, 0, 0, 0, 0xFE, 0, 0x08]);
    assert_eq!(begin(&mut image, Tran(1), Card(0)), Ok(()));
    for block in 0..64 {
        assert_eq!(get(&image, Tran(1), Rec(8 * block)), Ok(Some(block)));
        let first = Card(if block < 10 { 6 } else { 0 });
        assert_eq!(source(&image, Tran(1), Rec(8 * block)), Ok(Some(first)));
    }
    assert_eq!(place(&mut image, Mask(0xC6)), Ok(()));
    assert_eq!(place(&mut image, Mask(0xC6)), Err(Refusal::Placement));
    move_all(&mut image);
    assert_eq!(settle(&mut image), Ok(1));
    assert_eq!(image[..8], [0x10, 0xC6, 0, 0, 0, 0xFE, 0, 0x80]);
    assert!(image[KEPT..].iter().all(|byte| *byte == 0));
}

/// Block 0 of the second placement: three bits a card, most significant bit first.
#[test]
fn pairs_are_kept_behind_the_tables() {
    let mut image = filled();
    assert_eq!(place_by_table(&mut image, &table()), Ok(()));
    let kept = &image[KEPT..];
    assert_eq!(kept.len(), 4 * 48);
    assert!(kept[..48].iter().chain(&kept[96..]).all(|byte| *byte == 0));
    assert_eq!(kept[48..51], [0b1100_0111, 0b0001_1100, 0b0111_0001]);
    assert_eq!(kept[93..96], [0b0001_0100, 0b0101_0001, 0b0100_0101]);
}

#[test]
fn a_failure_places_by_rails() {
    let mut image = filled();
    assert_eq!(place_by_table(&mut image, &table()), Ok(()));
    assert_eq!(fail(&mut image, Card(6)), Ok(Failed::Placed(Mask(0xC4))));
    assert_eq!(image[7], 0xA4);
}

#[test]
fn refusals_in_their_order() {
    let image = filled();
    let mut three = filled();
    assert_eq!(place_by_table(&mut three, &one_by_one(64)), Ok(()));
    assert_eq!(place_by_table(&mut three, &table()), Ok(()));
    for image in [&image, &three] {
        assert_refused(&image[1..], &[], Refusal::Length);
        assert_refused(image, &one_by_one(65), Refusal::Range);
        for bad in [line(0, 64, [0, 1]), line(0, 63, [0, 8]), line(1, 0, [0, 1]), line(64, 64, [1, 1])] {
            assert_refused(image, &[bad], Refusal::Range);
        }
        for unfit in [line(5, 6, [1, 1]), line(0, 63, [0, 7])] {
            assert_refused(image, &[unfit], Refusal::Placement);
        }
        assert_refused(image, &[], Refusal::Gap);
        assert_refused(image, &one_by_one(63), Refusal::Gap);
        assert_refused(image, &[line(1, 63, [0, 1]), line(5, 9, [0, 1])], Refusal::Gap);
        assert_refused(image, &[line(0, 63, [0, 1]), line(5, 9, [0, 1])], Refusal::Overlap);
    }
    assert_refused(&three, &table(), Refusal::Active);
    assert_eq!(fail(&mut three, Card(0)), Ok(Failed::Stopped));
    assert_refused(&three, &[], Refusal::Stopped);
    assert_refused(&three, &[line(1, 0, [0, 1])], Refusal::Range);
}
