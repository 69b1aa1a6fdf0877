//! Image layout, slot fields and command form.

use model::calls::{perform, started, Answer, Call};
use model::commands::{read_command, write_command};
use model::control::Control;
use model::image::*;
use model::random::Random;
use model::sites::Placement;

#[test]
fn lengths() {
    assert_eq!(BLOCK_BYTES, 41);
    assert_eq!((BLOCKS_BYTES, TABLE_BYTES), (2_624, 2_628));
    assert_eq!(table_at(0), 32..2_660);
    assert_eq!(table_at(7).end, 21_056);
    assert_eq!(block_at(0, 0), 32..73);
    assert_eq!(block_at(7, 63).end, 21_052);
    assert_eq!(stamp_at(0), 2_656..2_660);
    assert_eq!(stamp_at(7), 21_052..21_056);
    assert_eq!(slot_at(0, 0, 0), 33..38);
    assert_eq!(slot_at(7, 63, 7).end, 21_052);
    assert_eq!((LENGTH, OLDER_LENGTH, OLDEST_LENGTH, PAIRS_BYTES), (21_248, 21_216, 21_024, 48));
    assert_eq!((TABLES, KEPT), (32..21_056, 21_056..21_248));
    assert_eq!(KEPT.len(), MOST_ACTIVE * PAIRS_BYTES);
}

/// Before stamps a table ended with its blocks, and before tables of plants nothing came behind.
#[test]
fn earlier_lengths() {
    for (length, kept) in [(OLDER_LENGTH, 21_024..21_216), (OLDEST_LENGTH, 21_024..21_024)] {
        let layout = Layout::of(&vec![0; length]);
        assert!(!layout.has_stamps());
        assert_eq!(layout.table_at(7), 18_400..21_024);
        assert_eq!(layout.slot_at(7, 63, 7).end, 21_024);
        assert_eq!((layout.tables(), layout.kept()), (32..21_024, kept));
    }
    assert_eq!(Layout::of(&[0; LENGTH]), Layout::TODAY);
    assert_eq!((Layout::TODAY.tables(), Layout::TODAY.kept()), (TABLES, KEPT));
}

#[test]
fn slots() {
    let committed = Slot { present: true, value: 4660, lock: 0, pending_present: false, pending_value: 0, rest: 0 };
    assert_eq!(committed.pack(), [0x89, 0x1A, 0x00, 0x00, 0x00]);
    let stored = Slot { present: false, value: 0, lock: 1, pending_present: true, pending_value: 4660, rest: 0 };
    assert_eq!(stored.pack(), [0x00, 0x00, 0x0C, 0x48, 0xD0]);
    let mut random = Random::new(1);
    for _ in 0..10_000 {
        let mut bytes = [0; 5];
        random.fill(&mut bytes);
        assert_eq!(Slot::unpack(&bytes).pack(), bytes);
    }
}

#[test]
fn control_part() {
    let mut homes = [None; 16];
    homes[1] = Some(2);
    homes[15] = Some(0);
    let mut pairs = [[0, 1]; BLOCKS];
    pairs[1] = [2, 0];
    let table = Placement::by_table(pairs);
    assert_eq!(table.mask, 0xE0);
    let placements = vec![Placement::chained(0xF0), table, Placement::by_rails(0xE0)];
    let control = Control { stopped: false, placements, working: 0xE1, failed: 0x10, homes, serial: 0x01_0203 };
    let mut bytes = vec![0; LENGTH];
    bytes[..CONTROL].fill(0xFF);
    bytes[KEPT].fill(0xFF);
    control.write(&mut bytes);
    let mut wanted = vec![0; LENGTH];
    wanted[..8].copy_from_slice(&[0x30, 0xF0, 0xE0, 0xE0, 0, 0xE1, 0x10, 0x24]);
    wanted[8] = 0xA0;
    wanted[22] = 0x80;
    wanted[23..26].copy_from_slice(&[1, 2, 3]);
    // Blocks 0, 2 and 3 are 000 001, block 1 is 010 000; the second placement has the second 48 bytes.
    for bytes in wanted[KEPT][48..96].chunks_mut(3) {
        bytes.copy_from_slice(&[0x04, 0x10, 0x41]);
    }
    wanted[KEPT][48..51].copy_from_slice(&[0x05, 0x00, 0x41]);
    assert_eq!(bytes, wanted);
    assert_eq!(Control::read(&bytes), Some(control));
}

#[test]
fn unnamed_bits_are_kept_and_copied() {
    let mut image = started(0xE0);
    perform(&mut image, &Call::Begin { transaction: 3, home: 0 });
    perform(&mut image, &Call::Store { transaction: 3, record: 0, value: 7 });
    // Unnamed bits on card 0 alone.
    image[block_at(0, 0).start] |= 0x55;
    image[slot_at(0, 0, 0).end - 1] |= 3;
    image[slot_at(0, 0, 1).end - 1] |= 2;
    perform(&mut image, &Call::Store { transaction: 3, record: 0, value: 8 });
    perform(&mut image, &Call::Commit { transaction: 3 });
    assert_eq!(image[block_at(0, 0).start], 0xD5);
    assert_eq!(image[slot_at(0, 0, 0)], [0x80, 0x04, 0, 0, 3]);
    assert_eq!(image[slot_at(0, 0, 1)], [0, 0, 0, 0, 2]);
    assert_eq!(image[slot_at(1, 0, 0)], [0x80, 0x04, 0, 0, 0]);
    // A copied block takes all 41 bytes; a copy that is met is kept.
    let whole = image[block_at(0, 0)].to_vec();
    perform(&mut image, &Call::Place { mask: 0x60 });
    assert_eq!(perform(&mut image, &Call::Move { card: 0, block: 0 }), Answer::Copies(1));
    assert!(image[block_at(2, 0)] == whole[..]);
    assert_eq!(image[block_at(1, 0).start], 0x80);
    assert!(image[block_at(0, 0)].iter().all(|byte| *byte == 0));
}

#[test]
fn rollback_leaves_the_value_and_commit_clears_it() {
    let mut image = started(0xC0);
    perform(&mut image, &Call::Begin { transaction: 2, home: 0 });
    perform(&mut image, &Call::Store { transaction: 2, record: 0, value: 8 });
    change_slot(&mut image, 0, 0, 0, |slot| slot.value = 99);
    let mut rolled = image.clone();
    perform(&mut rolled, &Call::Rollback { transaction: 2 });
    let blank = Slot { present: false, value: 99, lock: 0, pending_present: false, pending_value: 0, rest: 0 };
    assert_eq!(read_slot(&rolled, 0, 0, 0), blank);
    perform(&mut image, &Call::Delete { transaction: 2, record: 0 });
    perform(&mut image, &Call::Commit { transaction: 2 });
    assert_eq!(read_slot(&image, 0, 0, 0), Slot { value: 0, ..blank });
}

#[test]
fn commands_round() {
    // Every command that is read is written as the same bytes.
    let mut random = Random::new(2);
    let mut known = 0;
    for _ in 0..400_000 {
        let mut bytes = [0; 5];
        random.fill(&mut bytes);
        for byte in &mut bytes[1..] {
            if random.chance(600) {
                *byte = 0;
            }
        }
        if let Some(call) = read_command(&bytes) {
            let mut written = [0xAA; 5];
            assert!(write_command(&call, &mut written));
            assert_eq!(written, bytes);
            known += 1;
        }
    }
    assert!(known > 10_000);
}

#[test]
fn command_form() {
    assert_eq!(read_command(&[0x00, 0, 0, 0, 0xE0]), Some(Call::Start { mask: 0xE0 }));
    assert_eq!(read_command(&[0x00, 0, 0, 1, 0xE0]), None);
    assert_eq!(read_command(&[0x90, 0, 0, 1, 0x00]), None);
    assert_eq!(read_command(&[0xF0, 0, 0, 0, 0]), None);
    let widest = Call::Store { transaction: 15, record: 4095, value: 65535 };
    assert_eq!(read_command(&[0x3F, 0x0F, 0xFF, 0xFF, 0xFF]), Some(widest));
    assert_eq!(read_command(&[0x3F, 0x10, 0, 0, 0]), None);
    assert_eq!(read_command(&[0xB0, 0xFF, 0xFF, 0, 0]), Some(Call::Move { card: 15, block: 4095 }));
    assert_eq!(read_command(&[0xB1, 0xFF, 0xFF, 0, 0]), None);
    for length in [0, 1, 4, 6, 10] {
        assert_eq!(read_command(&vec![0; length]), None);
        let mut lent = vec![0xAA; length];
        assert!(!write_command(&Call::Settle, &mut lent));
        assert_eq!(lent, vec![0xAA; length]);
    }
    // Each field that an operation lacks, set alone.
    let lacks: [&[u8]; 15] = [
        b"tcn", b"nv", b"cv", b"c", b"cv", b"cnv", b"cnv", b"tnv", b"tnv", b"tcn", b"tnv", b"tv", b"tcnv", b"tcnv",
        b"tnv",
    ];
    for (operation, lacking) in lacks.iter().enumerate() {
        let zero = [(operation as u8) << 4, 0, 0, 0, 0];
        assert!(read_command(&zero).is_some());
        for (name, bits) in [(b't', 4..8), (b'c', 8..12), (b'n', 12..24), (b'v', 24..40)] {
            for bit in bits {
                let mut bytes = zero;
                bytes[bit / 8] |= 0x80 >> (bit % 8);
                let mask_too_wide = matches!(operation, 0 | 9) && name == b'v' && bit < 32;
                let malformed = lacking.contains(&name) || mask_too_wide;
                assert_eq!(read_command(&bytes).is_none(), malformed, "{bytes:?}");
            }
        }
    }
}

#[test]
fn writer_refuses_wide_numbers() {
    let wide = [
        Call::Begin { transaction: 16, home: 0 },
        Call::Begin { transaction: 1, home: 16 },
        Call::Get { transaction: 1, record: 4096 },
        Call::Store { transaction: 255, record: 0, value: 0 },
        Call::Delete { transaction: 1, record: 65535 },
        Call::Commit { transaction: 16 },
        Call::Rollback { transaction: 16 },
        Call::Fit { card: 16 },
        Call::Withdraw { card: 16 },
        Call::Fail { card: 255 },
        Call::Move { card: 16, block: 0 },
        Call::Move { card: 0, block: 4096 },
        Call::Load { card: 16 },
    ];
    for call in wide {
        let mut lent = [0xAA; 5];
        assert!(!write_command(&call, &mut lent));
        assert_eq!(lent, [0xAA; 5]);
        let mut image = started(0xFF);
        assert_eq!(perform(&mut image, &call), Answer::Refused(3));
    }
}
