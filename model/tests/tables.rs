//! Change request A.6: placing by a plant's table, what follows it, and going back to rails.

use model::calls::{perform, started};
use model::control::Control;
use model::image::*;
use model::move_list::{move_list, ListAnswer, Move, MOST_MOVES};
use model::queries::{ask, Query, Told};
use model::random::Random;
use model::sites::{pack_pairs, sites, trail, unpack_pairs, Placement};
use model::table::{place_by_table, read_lines, write_lines, Line, MOST_LINES};
use model::tables::good_lines;
use model::Answer;
use model::Call::{self, *};

/// Blocks 0 to 9 on cards 2 and 1, the others on 0 and 2.
const TWO_LINES: [u8; 8] = [0, 9, 2, 1, 10, 63, 0, 2];

fn ok(image: &mut [u8], call: Call) {
    assert_eq!(perform(image, &call), Answer::Ok, "{call:?}");
}

fn assert_refused(image: &[u8], lines: &[u8], number: u8) {
    let mut after = image.to_vec();
    assert_eq!(place_by_table(&mut after, lines), Answer::Refused(number), "{lines:?}");
    assert!(after == image, "{lines:?}");
}

/// Lines of one block each on cards 0 and 1, so many.
fn one_by_one(number: usize) -> Vec<u8> {
    (0..number as u8).flat_map(|block| [block, block, 0, 1]).collect()
}

/// The first record of each of these blocks is stored and committed.
fn fill(image: &mut [u8], home: u8, blocks: &[u16]) {
    ok(image, Begin { transaction: 1, home });
    for block in blocks {
        ok(image, Store { transaction: 1, record: 8 * block, value: 100 + block });
    }
    ok(image, Commit { transaction: 1 });
}

fn assert_held(image: &[u8], block: usize, wanted: &[usize]) {
    let found: Vec<usize> = (0..CARDS).filter(|card| held(image, *card, block)).collect();
    assert_eq!(found, wanted, "block {block}");
}

fn moves(image: &[u8]) -> Vec<Move> {
    let mut list = [Move::default(); MOST_MOVES];
    match move_list(image, &mut list) {
        ListAnswer::Listed(number) => list[..number].to_vec(),
        answer => panic!("{answer}"),
    }
}

fn make_moves(image: &mut [u8]) {
    for from in moves(image) {
        let answer = perform(image, &Call::Move { card: from.card, block: from.block.into() });
        assert!(matches!(answer, Answer::Copies(_)), "{answer}");
    }
}

#[test]
fn pairs_are_packed_block_by_block() {
    let mut random = Random::new(1);
    for _ in 0..200 {
        let mut bytes = [0; PAIRS_BYTES];
        random.fill(&mut bytes);
        let pairs = unpack_pairs(&bytes);
        assert_eq!(pack_pairs(&pairs), bytes);
        // Four blocks are 24 bits.
        for (four, bytes) in pairs.chunks(4).zip(bytes.chunks(3)) {
            let word = four.iter().flatten().fold(0u32, |word, card| word << 3 | u32::from(*card));
            assert_eq!(word.to_be_bytes()[1..], *bytes);
        }
    }
}

#[test]
fn a_table_is_placed() {
    let mut image = started(0xF0);
    assert_eq!(place_by_table(&mut image, &TWO_LINES), Answer::Ok);
    assert_eq!(image[..8], [0x20, 0xF0, 0xE0, 0, 0, 0xF0, 0, 0x84]);
    let mut pairs = [[0, 2]; BLOCKS];
    pairs[..10].fill([2, 1]);
    assert_eq!(image[KEPT][..48], [0; 48]);
    assert_eq!(image[KEPT][48..96], pack_pairs(&pairs));
    assert_eq!(image[KEPT][96..], [0; 96]);
    let control = Control::read(&image).unwrap();
    assert_eq!(control.newest(), Placement::by_table(pairs));
    assert_eq!(sites(control.newest(), 9), [2, 1]);
    assert_eq!(sites(control.newest(), 10), [0, 2]);
    // Sites of the older placement first.
    assert_eq!(trail(&control, 3), [3, 0, 2, 1]);
    assert_eq!(ask(&image, Query::Placement(1)), Told::Number(0xE0));
}

/// A store that stopped.
fn stopped() -> Vec<u8> {
    let mut image = started(0xC0);
    assert_eq!(perform(&mut image, &Fail { card: 1 }), Answer::Stopped);
    image
}

/// Three placements are active.
fn three() -> Vec<u8> {
    let mut image = started(0xF0);
    for mask in [0xE0, 0xF0] {
        ok(&mut image, Place { mask });
    }
    image
}

/// 1, 2 and 3 before all others, and 4 before 9 and before an empty table's 17.
#[test]
fn numbers_before_cards_and_lines() {
    let (running, stopped, three) = (started(0xF0), stopped(), three());
    let not_whole = [0, 63, 0];
    assert_refused(&running[1..], &not_whole, 1);
    assert_refused(&running[..OLDER_LENGTH], &TWO_LINES, 1);
    assert_refused(&[0; LENGTH], &not_whole, 2);
    for image in [&running, &stopped, &three] {
        assert_refused(image, &not_whole, 3);
        assert_refused(image, &one_by_one(65), 3);
        for bad in [[0, 64, 0, 1], [64, 64, 0, 1], [0, 63, 8, 1], [0, 63, 0, 255], [1, 0, 0, 1], [63, 62, 7, 7]] {
            assert_refused(image, &bad, 3);
            assert_refused(image, &[&TWO_LINES[..], &bad].concat(), 3);
        }
    }
    for lines in [&TWO_LINES[..], &[], &[0, 63, 5, 5]] {
        assert_refused(&stopped, lines, 4);
    }
}

/// 9 before gaps and overlaps, in any line; 17 before 18, and both before 10.
#[test]
fn cards_before_lines_and_placements() {
    let (running, three) = (started(0xF0), three());
    for image in [&running, &three] {
        for bad in [[0, 63, 1, 1], [0, 63, 0, 4], [0, 63, 7, 0], [5, 6, 3, 3]] {
            assert_refused(image, &bad, 9);
            assert_refused(image, &[&TWO_LINES[..], &bad].concat(), 9);
        }
        assert_refused(image, &[], 17);
        assert_refused(image, &one_by_one(63), 17);
        assert_refused(image, &[0, 9, 0, 1, 9, 62, 0, 1], 17);
        assert_refused(image, &[1, 63, 0, 1, 1, 63, 0, 1], 17);
        assert_refused(image, &[0, 9, 0, 1, 9, 63, 0, 1], 18);
        assert_refused(image, &[0, 63, 0, 1, 0, 63, 0, 1], 18);
    }
    assert_refused(&three, &TWO_LINES, 10);
    assert_refused(&three, &one_by_one(64), 10);
    assert_eq!(place_by_table(&mut running.clone(), &one_by_one(64)), Answer::Ok);
}

/// A failed card does not work, and neither does one that was never fitted.
#[test]
fn idle_cards() {
    let mut image = started(0xF0);
    assert_eq!(perform(&mut image, &Fail { card: 3 }), Answer::Placed(0xE0));
    assert_refused(&image, &[0, 63, 0, 3], 9);
    assert_refused(&image, &[0, 63, 4, 0], 9);
    assert_eq!(place_by_table(&mut image, &[0, 63, 0, 2]), Answer::Ok);
    assert_eq!(image[..8], [0x30, 0xF0, 0xE0, 0xA0, 0, 0xE0, 0x10, 0xC2]);
}

#[test]
fn newest_masks_again() {
    let mut image = started(0xE0);
    // By table over rails, by table over a table, and by rails over a table; by rails over rails it is 9.
    assert_eq!(perform(&mut image, &Place { mask: 0xE0 }), Answer::Refused(9));
    assert_eq!(place_by_table(&mut image, &TWO_LINES), Answer::Ok);
    assert_eq!(place_by_table(&mut image.clone(), &TWO_LINES), Answer::Ok);
    ok(&mut image, Place { mask: 0xE0 });
    assert_eq!(image[..8], [0x30, 0xE0, 0xE0, 0xE0, 0, 0xE0, 0, 0xA4]);
    assert_eq!(perform(&mut image, &Place { mask: 0xE0 }), Answer::Refused(9));
    assert_eq!(perform(&mut image, &Settle), Answer::Retired(2));
    assert_eq!(image[..8], [0x10, 0xE0, 0, 0, 0, 0xE0, 0, 0x80]);
    assert_eq!(image[KEPT], [0; 192]);
}

#[test]
fn settle_moves_what_is_kept() {
    for older in 1..=2 {
        let mut image = started(0xF0);
        for mask in [0xE0, 0xF0].into_iter().take(older - 1) {
            ok(&mut image, Place { mask });
        }
        assert_eq!(place_by_table(&mut image, &TWO_LINES), Answer::Ok);
        let pairs = image[KEPT][48 * older..48 * (older + 1)].to_vec();
        assert_eq!(perform(&mut image, &Settle), Answer::Retired(older as u8));
        assert_eq!(image[..8], [0x10, 0xE0, 0, 0, 0, 0xF0, 0, 0x08]);
        assert_eq!(image[KEPT][..48], pairs);
        assert_eq!(image[KEPT][48..], [0; 144]);
        assert_eq!(perform(&mut image, &Settle), Answer::Retired(0));
        assert_eq!(image[KEPT][..48], pairs);
    }
}

#[test]
fn blocks_go_to_the_table_and_back_to_rails() {
    let mut image = started(0xCC);
    fill(&mut image, 0, &[0, 1, 40]);
    let lines = [0, 31, 5, 0, 32, 63, 1, 4];
    assert_eq!(place_by_table(&mut image, &lines), Answer::Ok);
    // Blocks 0 and 40 lie on 0 and 4, block 1 on 1 and 4.
    let listed: Vec<(u8, u8)> = moves(&image).iter().map(|from| (from.card, from.block)).collect();
    assert_eq!(listed, [(4, 0), (1, 1), (4, 1), (0, 40)]);
    assert_eq!(perform(&mut image, &Settle), Answer::Refused(13));
    make_moves(&mut image);
    for (block, wanted) in [(0, [0, 5]), (1, [0, 5]), (40, [1, 4])] {
        assert_held(&image, block, &wanted);
    }
    assert_eq!(perform(&mut image, &Settle), Answer::Retired(1));
    // A block that is made goes to the table's cards, the first of which a get reads.
    ok(&mut image, Begin { transaction: 1, home: 5 });
    ok(&mut image, Store { transaction: 1, record: 16, value: 9 });
    assert_held(&image, 2, &[0, 5]);
    assert_eq!(ask(&image, Query::Source { transaction: 1, record: 16 }), Told::Number(5));
    ok(&mut image, Commit { transaction: 1 });
    ok(&mut image, Place { mask: 0xCC });
    make_moves(&mut image);
    for (block, wanted) in [(0, [0, 4]), (1, [1, 4]), (2, [0, 4]), (40, [0, 4])] {
        assert_held(&image, block, &wanted);
    }
    assert_eq!(perform(&mut image, &Settle), Answer::Retired(1));
    assert!(moves(&image).is_empty());
    ok(&mut image, Begin { transaction: 2, home: 0 });
    for (record, value) in [(0, 100), (8, 101), (16, 9), (320, 140)] {
        assert_eq!(perform(&mut image, &Get { transaction: 2, record }), Answer::Value(value));
    }
}

#[test]
fn a_failure_places_by_rails() {
    let mut image = started(0xFF);
    assert_eq!(place_by_table(&mut image, &[0, 63, 3, 6]), Answer::Ok);
    let mut other = image.clone();
    assert_eq!(perform(&mut other, &Fail { card: 0 }), Answer::Unplaced);
    assert_eq!(other[7], 0x84);
    assert_eq!(perform(&mut image, &Fail { card: 3 }), Answer::Stopped);
    assert_eq!(image[7], 0x84);
    let mut image = started(0xFF);
    assert_eq!(place_by_table(&mut image, &[0, 9, 3, 6, 10, 63, 0, 3]), Answer::Ok);
    assert_eq!(perform(&mut image, &Fail { card: 3 }), Answer::Placed(0x82));
    assert_eq!(image[..8], [0x30, 0xFF, 0x92, 0x82, 0, 0xEF, 0x10, 0xA4]);
    assert_eq!(image[KEPT][96..], [0; 96]);
    // Block 0 was to lie on 3 and 6; 3 is left out of its trail.
    assert_eq!(trail(&Control::read(&image).unwrap(), 0), [0, 4, 6, 0, 6]);
}

/// A start on an image with tables leaves none.
#[test]
fn start_clears_what_is_kept() {
    let mut image = started(0xF0);
    assert_eq!(place_by_table(&mut image, &TWO_LINES), Answer::Ok);
    ok(&mut image, Start { mask: 0xE0 });
    assert!(image == started(0xE0));
}

#[test]
fn lines_round() {
    let mut random = Random::new(4);
    for _ in 0..500 {
        let lines = good_lines(&mut random, 0xFF);
        assert!(lines.len() <= MOST_LINES);
        assert_eq!(read_lines(&write_lines(&lines)), Some(lines.clone()));
        assert_eq!(place_by_table(&mut started(0xFF), &write_lines(&lines)), Answer::Ok);
    }
    assert_eq!(read_lines(&[3, 4, 5, 6]), Some(vec![Line { first: 3, last: 4, cards: [5, 6] }]));
}
