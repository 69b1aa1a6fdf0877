//! Commands from their fields and back.

use nolpigat::*;

/// A command of each operation, with every field that it has, and its bytes.
fn written() -> [(Command, [u8; COMMAND_SIZE]); 15] {
    let of = Command::new;
    [
        (of(Operation::Start).mask(Mask(0xE0)), [0x00, 0x00, 0x00, 0x00, 0xE0]),
        (of(Operation::Begin).transaction(Tran(1)).card(Card(2)), [0x11, 0x20, 0x00, 0x00, 0x00]),
        (of(Operation::Get).transaction(Tran(15)).record(Rec(511)), [0x2F, 0x01, 0xFF, 0x00, 0x00]),
        (of(Operation::Store).transaction(Tran(1)).record(Rec(9)).value(0x1234), [0x31, 0x00, 0x09, 0x12, 0x34]),
        (of(Operation::Delete).transaction(Tran(1)).record(Rec(9)), [0x41, 0x00, 0x09, 0x00, 0x00]),
        (of(Operation::Commit).transaction(Tran(1)), [0x51, 0x00, 0x00, 0x00, 0x00]),
        (of(Operation::Rollback).transaction(Tran(1)), [0x61, 0x00, 0x00, 0x00, 0x00]),
        (of(Operation::Fit).card(Card(7)), [0x70, 0x70, 0x00, 0x00, 0x00]),
        (of(Operation::Withdraw).card(Card(7)), [0x80, 0x70, 0x00, 0x00, 0x00]),
        (of(Operation::Place).mask(Mask(0xFF)), [0x90, 0x00, 0x00, 0x00, 0xFF]),
        (of(Operation::Fail).card(Card(1)), [0xA0, 0x10, 0x00, 0x00, 0x00]),
        (of(Operation::Move).card(Card(2)).block(Block(63)), [0xB0, 0x20, 0x3F, 0x00, 0x00]),
        (of(Operation::Settle), [0xC0, 0x00, 0x00, 0x00, 0x00]),
        (of(Operation::State), [0xD0, 0x00, 0x00, 0x00, 0x00]),
        (of(Operation::Load).card(Card(0)), [0xE0, 0x00, 0x00, 0x00, 0x00]),
    ]
}

#[test]
fn round_trip() {
    for (fields, bytes) in written() {
        assert_eq!(fields.write(), Ok(bytes));
        assert_eq!(Command::read(&bytes), Ok(fields));
    }
}

#[test]
fn malformed_fields() {
    let of = Command::new;
    for fields in [
        of(Operation::Settle).card(Card(1)),
        of(Operation::Start).value(256),
        of(Operation::Begin).transaction(Tran(16)),
        of(Operation::Fit).card(Card(16)),
        of(Operation::Get).transaction(Tran(1)).record(Rec(4096)),
        of(Operation::Get).transaction(Tran(1)).value(1),
    ] {
        assert_eq!(fields.write(), Err(Refusal::Malformed), "{fields:?}");
    }
}

#[test]
fn malformed_bytes() {
    for bytes in [&[0xF0, 0, 0, 0, 0][..], &[0xD0, 0, 0, 0, 1], &[], &[0xD0, 0, 0, 0], &[0xD0, 0, 0, 0, 0, 0]] {
        assert_eq!(Command::read(bytes), Err(Refusal::Malformed), "{bytes:02X?}");
    }
}

/// A number that has room in its field may still be outside the call's range.
#[test]
fn out_of_range_is_well_formed() {
    let bytes = Command::new(Operation::Get).transaction(Tran(1)).record(Rec(4095)).write().expect("well formed");
    let mut image = [0; IMAGE_SIZE];
    assert_eq!(start(&mut image, Mask(0xE0)), Ok(()));
    assert_eq!(command(&mut image, &bytes), Answer::Refused(Refusal::Range));
}
