//! Change request A.5: store refuses 65,535 with 3, and records that have it from before are used as before.

mod reached;

use model::calls::{perform, started};
use model::converter::converted;
use model::edition::{Edition, BROKEN_WIRE};
use model::image::{read_slot, slot_at, LENGTH};
use model::plain::{Expected, Plain};
use model::Answer;
use model::Call::{self, *};
use model::{read_command, write_command};
use reached::{after, make};

const EARLIER: [Edition; 2] = [Edition::Base, Edition::Rails];

const STORE: Call = Store { transaction: 1, record: 9, value: BROKEN_WIRE };

fn assert_refused(image: &[u8], call: &Call, number: u8) {
    let mut after = image.to_vec();
    assert_eq!(perform(&mut after, call), Answer::Refused(number), "{call:?}");
    assert!(after == image, "{call:?}");
}

fn assert_answers(image: &mut [u8], calls: &[(Call, Answer)]) {
    for (call, answer) in calls {
        assert_eq!(perform(image, call), *answer, "{call:?}");
    }
}

/// On cards 0, 1 and 2 record 9 has a committed 65,535, and record 17 a pending one of transaction 2; converted.
fn left(edition: Edition) -> Vec<u8> {
    let calls = [
        Start { mask: 0xE0 },
        Begin { transaction: 1, home: 0 },
        STORE,
        Commit { transaction: 1 },
        Begin { transaction: 1, home: 0 },
        Begin { transaction: 2, home: 1 },
        Store { transaction: 2, record: 17, value: BROKEN_WIRE },
    ];
    converted(&after(edition, &calls))
}

#[test]
fn refused_between_2_and_4() {
    let open = after(Edition::Today, &[Start { mask: 0xC0 }, Begin { transaction: 1, home: 0 }]);
    assert_refused(&open, &STORE, 3);
    assert_refused(&started(0xC0), &STORE, 3);
    let mut locked = open.clone();
    let lock = [Begin { transaction: 2, home: 1 }, Store { transaction: 2, record: 9, value: 1 }];
    make(Edition::Today, &mut locked, &lock);
    assert_refused(&locked, &STORE, 3);
    let mut stopped = open.clone();
    assert_eq!(perform(&mut stopped, &Fail { card: 1 }), Answer::Stopped);
    assert_refused(&stopped, &STORE, 3);
    assert_refused(&stopped, &Store { transaction: 1, record: 9, value: 65_534 }, 4);
    assert_refused(&[0; LENGTH], &STORE, 2);
    assert_refused(&open[1..], &STORE, 1);
}

#[test]
fn every_other_value_is_stored() {
    let mut image = after(Edition::Today, &[Start { mask: 0xC0 }, Begin { transaction: 1, home: 0 }]);
    for value in 0..65_535 {
        assert_answers(&mut image, &[
            (Store { transaction: 1, record: 9, value }, Answer::Ok),
            (Get { transaction: 1, record: 9 }, Answer::Value(value)),
        ]);
    }
}

#[test]
fn read_and_not_stored_again() {
    for edition in EARLIER {
        let mut image = left(edition);
        assert_answers(&mut image, &[
            (Get { transaction: 1, record: 9 }, Answer::Value(65_535)),
            (Get { transaction: 2, record: 17 }, Answer::Value(65_535)),
            (Get { transaction: 1, record: 17 }, Answer::Refused(7)),
            (Load { card: 1 }, Answer::Load(1)),
        ]);
        assert_refused(&image, &STORE, 3);
        assert_refused(&image, &Store { transaction: 2, record: 17, value: BROKEN_WIRE }, 3);
    }
}

#[test]
fn committed_rolled_back_and_deleted() {
    for edition in EARLIER {
        let mut image = left(edition);
        let read_by_3 = |record, answer| [
            (Begin { transaction: 3, home: 0 }, Answer::Ok),
            (Get { transaction: 3, record }, answer),
            (Rollback { transaction: 3 }, Answer::Ok),
        ];
        // A pending one is rolled back, on a copy, and committed.
        let mut rolled_back = image.clone();
        assert_answers(&mut rolled_back, &[(Rollback { transaction: 2 }, Answer::Ok)]);
        assert_answers(&mut rolled_back, &read_by_3(17, Answer::Absent));
        assert_answers(&mut image, &[(Commit { transaction: 2 }, Answer::Ok)]);
        assert_answers(&mut image, &read_by_3(17, Answer::Value(65_535)));
        assert_eq!(image[slot_at(2, 2, 1)], [0xFF, 0xFF, 0x80, 0x00, 0x00]);
        // Another value over it is rolled back; a delete is committed.
        assert_answers(&mut image, &[
            (Store { transaction: 1, record: 9, value: 65_534 }, Answer::Ok),
            (Rollback { transaction: 1 }, Answer::Ok),
        ]);
        assert_answers(&mut image, &read_by_3(9, Answer::Value(65_535)));
        assert_answers(&mut image, &[
            (Begin { transaction: 1, home: 0 }, Answer::Ok),
            (Delete { transaction: 1, record: 9 }, Answer::Ok),
            (Commit { transaction: 1 }, Answer::Ok),
        ]);
        assert_answers(&mut image, &read_by_3(9, Answer::Absent));
    }
}

#[test]
fn deleted_while_pending() {
    for edition in EARLIER {
        let mut image = left(edition);
        assert_answers(&mut image, &[
            (Delete { transaction: 2, record: 17 }, Answer::Ok),
            (Get { transaction: 2, record: 17 }, Answer::Absent),
            (Commit { transaction: 2 }, Answer::Ok),
            (Get { transaction: 1, record: 17 }, Answer::Absent),
        ]);
    }
}

#[test]
fn moved_and_kept_through_a_failure() {
    for edition in EARLIER {
        let mut image = left(edition);
        // Block 1 is on cards 1 and 2, and transaction 2 began on card 1.
        assert_answers(&mut image, &[
            (Fail { card: 1 }, Answer::Placed(0xA0)),
            (Get { transaction: 1, record: 17 }, Answer::Absent),
            (Get { transaction: 1, record: 9 }, Answer::Value(65_535)),
            (Move { card: 2, block: 1 }, Answer::Copies(1)),
            (Get { transaction: 1, record: 9 }, Answer::Value(65_535)),
        ]);
        assert_eq!(read_slot(&image, 0, 1, 1).committed(), Some(65_535));
    }
}

/// The form of commands does not change.
#[test]
fn command_is_well_formed() {
    let mut bytes = [0; 5];
    assert!(write_command(&STORE, &mut bytes));
    assert_eq!(bytes, [0x31, 0x00, 0x09, 0xFF, 0xFF]);
    assert_eq!(read_command(&bytes), Some(STORE));
}

/// The plain record list has the same range: 3 before 5 and 7, and what is there stays.
#[test]
fn plain_list_refuses() {
    for edition in EARLIER {
        let mut plain = Plain::start(edition, 0xE0);
        let refused = Expected::Exactly(Answer::Refused(3));
        for call in [Begin { transaction: 1, home: 0 }, Begin { transaction: 2, home: 0 }, STORE] {
            assert_eq!(plain.step(&call), Expected::Exactly(Answer::Ok), "{call:?}");
        }
        plain.go_on_by(Edition::Today);
        assert_eq!(plain.step(&STORE), refused);
        for transaction in [2, 3] {
            assert_eq!(plain.step(&Store { transaction, record: 9, value: BROKEN_WIRE }), refused);
        }
        let value = Expected::Exactly(Answer::Value(65_535));
        assert_eq!(plain.step(&Get { transaction: 1, record: 9 }), value);
        assert_eq!(plain.step(&Commit { transaction: 1 }), Expected::Exactly(Answer::Ok));
        assert_eq!(plain.step(&Get { transaction: 2, record: 9 }), value);
        let largest = Store { transaction: 2, record: 9, value: 65_534 };
        assert_eq!(plain.step(&largest), Expected::Exactly(Answer::Ok));
    }
}
