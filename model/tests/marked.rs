//! The marked examples M1 to M10 and the listing of ten commands (docs/RULES.md).

use model::calls::{perform, started, Answer, Call};
use model::image::{held, slot_at, LENGTH};
use model::listing::listing;
use model::sites::{sites, Placement};

fn begin(image: &mut [u8], transaction: u8, home: u8) {
    assert_eq!(perform(image, &Call::Begin { transaction, home }), Answer::Ok);
}

#[test]
fn m1_sites_under_e0() {
    for placement in [Placement::chained, Placement::by_rails] {
        assert_eq!(sites(placement(0xE0), 1), [1, 2]);
        assert_eq!(sites(placement(0xE0), 2), [2, 0]);
    }
}

#[test]
fn m2_sites_under_81() {
    for placement in [Placement::chained, Placement::by_rails] {
        assert_eq!(sites(placement(0x81), 63), [7, 0]);
    }
}

#[test]
fn m3_last_record() {
    let mut image = started(0x81);
    begin(&mut image, 1, 0);
    let store = |record| Call::Store { transaction: 1, record, value: 1 };
    assert_eq!(perform(&mut image, &store(511)), Answer::Ok);
    assert!(held(&image, 7, 63) && held(&image, 0, 63));
    assert_eq!(perform(&mut image, &store(512)), Answer::Refused(3));
}

#[test]
fn m4_least_members() {
    let mut image = vec![0; LENGTH];
    assert_eq!(perform(&mut image, &Call::Start { mask: 0x80 }), Answer::Refused(9));
    assert_eq!(perform(&mut image, &Call::Start { mask: 0xC0 }), Answer::Ok);
}

#[test]
fn m5_slot_bytes() {
    let mut image = started(0xC0);
    begin(&mut image, 1, 0);
    perform(&mut image, &Call::Store { transaction: 1, record: 9, value: 4660 });
    for card in 0..2 {
        assert_eq!(image[slot_at(card, 1, 1)], [0x00, 0x00, 0x0C, 0x48, 0xD0]);
    }
    perform(&mut image, &Call::Commit { transaction: 1 });
    for card in 0..2 {
        assert_eq!(image[slot_at(card, 1, 1)], [0x89, 0x1A, 0x00, 0x00, 0x00]);
    }
}

#[test]
fn m6_failing() {
    let mut image = started(0xE0);
    assert_eq!(perform(&mut image, &Call::Fail { card: 1 }), Answer::Placed(0xA0));
    let mut image = started(0xA0);
    assert_eq!(perform(&mut image, &Call::Fail { card: 2 }), Answer::Stopped);
}

#[test]
fn m7_limit_of_placements() {
    let mut image = started(0xF0);
    assert_eq!(perform(&mut image, &Call::Place { mask: 0xE0 }), Answer::Ok);
    assert_eq!(perform(&mut image, &Call::Place { mask: 0xF0 }), Answer::Ok);
    assert_eq!(perform(&mut image, &Call::Place { mask: 0xC0 }), Answer::Refused(10));
}

#[test]
fn m8_move_of_a_locked_block() {
    let mut image = started(0xE0);
    begin(&mut image, 1, 0);
    perform(&mut image, &Call::Store { transaction: 1, record: 9, value: 1 });
    assert_eq!(perform(&mut image, &Call::Move { card: 1, block: 1 }), Answer::Refused(12));
}

#[test]
fn m9_delete_of_an_absent_record() {
    let mut image = started(0xE0);
    begin(&mut image, 1, 0);
    begin(&mut image, 2, 0);
    let before = image.clone();
    assert_eq!(perform(&mut image, &Call::Delete { transaction: 1, record: 9 }), Answer::Absent);
    assert!(image == before);
    assert_eq!(perform(&mut image, &Call::Store { transaction: 2, record: 9, value: 1 }), Answer::Ok);
}

#[test]
fn m10_settle_after_a_bare_start() {
    let mut image = started(0xE0);
    assert_eq!(perform(&mut image, &Call::Settle), Answer::Retired(0));
}

const EXAMPLE: [u8; 50] = [
    0x00, 0x00, 0x00, 0x00, 0xE0, 0x11, 0x00, 0x00, 0x00, 0x00, 0x31, 0x00, 0x09, 0x12, 0x34, 0x51, 0x00,
    0x00, 0x00, 0x00, 0xA0, 0x10, 0x00, 0x00, 0x00, 0xB0, 0x20, 0x01, 0x00, 0x00, 0xC0, 0x00, 0x00, 0x00,
    0x00, 0x11, 0x00, 0x00, 0x00, 0x00, 0x21, 0x00, 0x09, 0x00, 0x00, 0xA0, 0x20, 0x00, 0x00, 0x00,
];

const LISTING: &str = "\
1 00000000E0 ok
2 1100000000 ok
3 3100091234 ok
4 5100000000 ok
5 A010000000 placed A0
6 B020010000 copies 1
7 C000000000 retired 1
8 1100000000 ok
9 2100090000 value 4660
10 A020000000 stopped
";

#[test]
fn listing_of_the_example() {
    assert_eq!(listing(&EXAMPLE), LISTING);
}

#[test]
fn listing_program() {
    use std::io::Write;
    use std::process::{Command, Stdio};
    let mut child = Command::new(env!("CARGO_BIN_EXE_listing"))
        .stdin(Stdio::piped())
        .stdout(Stdio::piped())
        .spawn()
        .unwrap();
    child.stdin.take().unwrap().write_all(&EXAMPLE).unwrap();
    let output = child.wait_with_output().unwrap();
    assert!(output.status.success());
    assert_eq!(String::from_utf8(output.stdout).unwrap(), LISTING);
}

#[test]
fn listing_of_short_ends() {
    assert_eq!(listing(&[]), "");
    assert_eq!(listing(&[0xA]), "1 0A refused 15\n");
    assert_eq!(listing(&[0, 0, 0, 0, 0xC0, 0xDE, 0xAD, 0xBE, 0xEF]), "1 00000000C0 ok\n2 DEADBEEF refused 15\n");
    assert_eq!(listing(&[0xD0, 0, 0, 0, 0]), "1 D000000000 refused 2\n");
    assert_eq!(listing(&[0xD0, 0, 0, 0, 1]), "1 D000000001 refused 15\n");
}
