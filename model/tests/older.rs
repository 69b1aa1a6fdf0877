//! The stored command files that go on from images of earlier editions.

use model::broken_wire_situations::{broken_wire_situations, LEFT_BROKEN_WIRE, NO_BROKEN_WIRE};
use model::calls::{perform, perform_by};
use model::commands::{read_command, COMMAND_BYTES};
use model::control::Control;
use model::edition::{Edition, BROKEN_WIRE};
use model::converter::converted;
use model::image::{held_blocks, place_of, read_slot, Slot, PLACES, RECORDS};
use model::listing::{answer, listing_from};
use model::sites::{holders, members};
use model::table::place_by_table_by;
use model::{Answer, Call};
use std::collections::BTreeSet;
use std::path::Path;
use std::process::{Command, Stdio};

fn path(case: &str, file: &str) -> String {
    format!("{}/../tests/older/{case}/{file}", env!("CARGO_MANIFEST_DIR"))
}

fn stored(case: &str, file: &str) -> Vec<u8> {
    std::fs::read(path(case, file)).unwrap()
}

fn calls(commands: &[u8]) -> impl Iterator<Item = Call> + '_ {
    commands.chunks(COMMAND_BYTES).filter_map(read_command)
}

#[test]
fn earlier_commands_leave_the_images() {
    for (case, edition) in Edition::NAMES {
        let mut image = vec![0; edition.length()];
        for call in calls(&stored(case, "earlier")) {
            perform_by(edition, &mut image, &call);
        }
        if edition.has_tables() {
            assert_eq!(place_by_table_by(edition, &mut image, &stored(case, "lines")), Answer::Ok);
        }
        assert!(image == stored(case, "image"), "{case}");
    }
}

#[test]
fn listings_go_on_from_the_images() {
    for (case, _) in Edition::NAMES {
        let listing = listing_from(&beginning(case), &stored(case, "stdin"));
        assert!(listing.as_bytes() == stored(case, "stdout"), "{case}");
    }
}

/// The blocks in which 65,535 is committed, and those in which it is pending.
fn blocks_with_it(image: &[u8], control: &Control) -> [BTreeSet<usize>; 2] {
    let mut found = [BTreeSet::new(), BTreeSet::new()];
    for card in members(control.working) {
        for block in held_blocks(image, card) {
            for slot in (0..PLACES).map(|place| read_slot(image, card, block, place)) {
                found[0].extend((slot.committed() == Some(BROKEN_WIRE)).then_some(block));
                found[1].extend((slot.lock != 0 && slot.pending() == Some(BROKEN_WIRE)).then_some(block));
            }
        }
    }
    found
}

/// Several placements are active, and 65,535 is in many blocks, committed and pending, where the edition stores it.
#[test]
fn images_have_broken_wires() {
    for (case, edition) in Edition::NAMES {
        let image = stored(case, "image");
        let control = Control::read_by(edition, &image).expect("the form is whole");
        assert!(!control.stopped && control.placements.len() >= 2, "{case}");
        assert_eq!(control.newest().is_by_table(), edition.has_tables(), "{case}");
        let [committed, pending] = blocks_with_it(&image, &control);
        let many = committed.len() >= 5 && pending.len() >= 5;
        assert_eq!(many, edition.stores(BROKEN_WIRE), "{case}: {committed:?} {pending:?}");
    }
}

/// The earlier editions by name whose stores leave 65,535.
fn leaving() -> impl Iterator<Item = (&'static str, Edition)> {
    Edition::NAMES.into_iter().filter(|(_, edition)| edition.stores(BROKEN_WIRE))
}

/// Where a case goes on.
fn beginning(case: &str) -> Vec<u8> {
    converted(&stored(case, "image"))
}

#[test]
fn every_situation_in_each() {
    for (case, _) in leaving() {
        let mut image = beginning(case);
        let mut met = BTreeSet::new();
        for bytes in stored(case, "stdin").chunks(COMMAND_BYTES) {
            let before = image.clone();
            let answer = answer(&mut image, bytes);
            met.extend(read_command(bytes).map_or(Vec::new(), |call| broken_wire_situations(&before, &call, &answer)));
        }
        let wanted = LEFT_BROKEN_WIRE.iter().chain(NO_BROKEN_WIRE);
        let missing: Vec<_> = wanted.filter(|name| !met.contains(**name)).collect();
        assert!(missing.is_empty(), "{case}: {missing:?}");
    }
}

/// Records in which the transaction has a pending 65,535.
fn pending_records(image: &[u8], transaction: u8) -> BTreeSet<u16> {
    let control = Control::read(image).expect("the form is whole");
    let slot = |record: u16| {
        let (block, place) = place_of(record);
        holders(image, &control, block).first().map(|card| read_slot(image, *card, block, place))
    };
    let pending = |slot: Slot| slot.lock == transaction && slot.pending() == Some(BROKEN_WIRE);
    (0..RECORDS as u16).filter(|record| slot(*record).is_some_and(pending)).collect()
}

/// A pending 65,535 that is committed is read after it.
#[test]
fn committed_ones_are_read() {
    for (case, _) in leaving() {
        let mut image = beginning(case);
        let (mut committed, mut read) = (BTreeSet::new(), BTreeSet::new());
        for call in calls(&stored(case, "stdin")) {
            let before = image.clone();
            match (call, perform(&mut image, &call)) {
                (Call::Commit { transaction }, Answer::Ok) => committed.extend(pending_records(&before, transaction)),
                (Call::Get { record, .. }, Answer::Value(BROKEN_WIRE)) => read.extend(committed.get(&record).copied()),
                _ => {}
            }
        }
        assert!(!read.is_empty(), "{case}: {committed:?}");
    }
}

/// The exit status of the model's program, and what it prints.
fn program(image: &Path, commands: &str) -> (Option<i32>, Vec<u8>) {
    let mut program = Command::new(env!("CARGO_BIN_EXE_listing"));
    program.arg(image).stdin(std::fs::File::open(commands).unwrap()).stderr(Stdio::null());
    let output = program.output().unwrap();
    (output.status.code(), output.stdout)
}

#[test]
fn program_goes_on_from_an_image() {
    for (case, _) in Edition::NAMES {
        let (image, stdin) = (path(case, "image"), path(case, "stdin"));
        assert_eq!(program(image.as_ref(), &stdin), (Some(0), stored(case, "stdout")), "{case}");
        // Another length is none of an image's.
        assert_eq!(program(stdin.as_ref(), &stdin), (Some(2), vec![]), "{case}");
    }
}
