//! Images and numbers that no call accepts, malformed commands, and each refusal once: the image is left as found.

use nolpigat::*;

/// A call, of which only the refusal counts.
type Call = fn(&mut [u8]) -> Result<(), Refusal>;

/// The refusal of a command, as of a call.
fn performed(image: &mut [u8], bytes: &[u8]) -> Result<(), Refusal> {
    match command(image, bytes) {
        Answer::Refused(refusal) => Err(refusal),
        _ => Ok(()),
    }
}

/// Each call, with numbers in their ranges, start first.
const CALLS: [Call; 17] = [
    |image| start(image, Mask(0xE0)),
    |image| begin(image, Tran(2), Card(1)),
    |image| get(image, Tran(1), Rec(9)).map(drop),
    |image| store(image, Tran(1), Rec(9), 4660),
    |image| delete(image, Tran(1), Rec(9)).map(drop),
    |image| commit(image, Tran(1)),
    |image| rollback(image, Tran(1)),
    |image| fit(image, Card(3)),
    |image| withdraw(image, Card(3)),
    |image| place(image, Mask(0xC0)),
    |image| move_block(image, Card(1), Block(1)).map(drop),
    |image| settle(image).map(drop),
    |image| state(image).map(drop),
    |image| load(image, Card(1)).map(drop),
    |image| performed(image, &[0x11, 0, 0, 0, 0]),
    |image| move_list(image, &mut []).map(drop),
    |image| place_by_table(image, &[]),
];

/// The calls that a stopped store takes, with a card that fits each.
const STOPPED_CALLS: [Call; 2] = [|image| fail(image, Card(0)).map(drop), |image| return_card(image, Card(1))];

/// The queries of the control part.
const QUERIES: [Call; 7] = [
    |image| stopped(image).map(drop),
    |image| placement_count(image).map(drop),
    |image| placement(image, 0).map(drop),
    |image| working(image).map(drop),
    |image| failed(image).map(drop),
    |image| home(image, Tran(1)).map(drop),
    |image| free_transaction(image).map(drop),
];

/// The queries about a record.
const RECORD_QUERIES: [Call; 2] =
    [|image| source(image, Tran(1), Rec(9)).map(drop), |image| holders(image, Tran(1), Rec(9)).map(drop)];

fn all() -> impl Iterator<Item = Call> {
    CALLS.into_iter().chain(STOPPED_CALLS).chain(QUERIES).chain(RECORD_QUERIES)
}

/// Cards 0, 1 and 2, with transaction 1 open.
fn opened() -> Vec<u8> {
    let mut image = vec![0; IMAGE_SIZE];
    assert_eq!(start(&mut image, Mask(0xE0)), Ok(()));
    assert_eq!(begin(&mut image, Tran(1), Card(0)), Ok(()));
    image
}

/// Record 9 has a pending value of transaction 2.
fn locked() -> Vec<u8> {
    let mut image = opened();
    assert_eq!(begin(&mut image, Tran(2), Card(1)), Ok(()));
    assert_eq!(store(&mut image, Tran(2), Rec(9), 4660), Ok(()));
    image
}

/// Of two cards one has failed.
fn stopped_store() -> Vec<u8> {
    let mut image = vec![0; IMAGE_SIZE];
    assert_eq!(start(&mut image, Mask(0xC0)), Ok(()));
    assert_eq!(fail(&mut image, Card(1)), Ok(Failed::Stopped));
    image
}

fn assert_refused(image: &[u8], call: Call, refusal: Refusal) {
    let mut after = image.to_vec();
    assert_eq!(call(&mut after), Err(refusal));
    assert!(after == image, "a refused call changed the image");
}

#[test]
fn wrong_lengths() {
    for length in [0, 1, VERSION_1_IMAGE_SIZE, VERSION_2_IMAGE_SIZE, IMAGE_SIZE - 1, IMAGE_SIZE + 1] {
        let mut image = opened();
        image.resize(length, 0);
        for call in all() {
            assert_refused(&image, call, Refusal::Length);
        }
    }
}

#[test]
fn broken_control_form() {
    for byte in [0, 0xFF] {
        for call in all().skip(1) {
            assert_refused(&[byte; IMAGE_SIZE], call, Refusal::ControlForm);
        }
    }
}

#[test]
fn few_calls_and_queries_of_the_control_part_after_a_stop() {
    for call in CALLS[1..].iter().chain(&RECORD_QUERIES) {
        assert_refused(&stopped_store(), *call, Refusal::Stopped);
    }
    for call in STOPPED_CALLS.into_iter().chain(QUERIES) {
        assert_eq!(call(&mut stopped_store()), Ok(()));
    }
}

#[test]
fn numbers_outside_their_ranges() {
    let calls: [Call; 27] = [
        |image| begin(image, Tran(0), Card(0)),
        |image| begin(image, Tran(16), Card(0)),
        |image| begin(image, Tran(2), Card(8)),
        |image| get(image, Tran(16), Rec(9)).map(drop),
        |image| get(image, Tran(1), Rec(512)).map(drop),
        |image| store(image, Tran(1), Rec(512), 0),
        |image| store(image, Tran(1), Rec(u16::MAX), 0),
        |image| store(image, Tran(1), Rec(9), 65_535),
        |image| store(image, Tran(2), Rec(9), 65_535),
        |image| performed(image, &[0x31, 0, 9, 0xFF, 0xFF]),
        |image| delete(image, Tran(1), Rec(512)).map(drop),
        |image| commit(image, Tran(0)),
        |image| rollback(image, Tran(u8::MAX)),
        |image| fit(image, Card(8)),
        |image| withdraw(image, Card(8)),
        |image| fail(image, Card(8)).map(drop),
        |image| return_card(image, Card(8)),
        |image| return_card(image, Card(u8::MAX)),
        |image| move_block(image, Card(1), Block(64)).map(drop),
        |image| move_block(image, Card(8), Block(1)).map(drop),
        |image| load(image, Card(u8::MAX)).map(drop),
        |image| placement(image, MOST_PLACEMENTS).map(drop),
        |image| home(image, Tran(0)).map(drop),
        |image| home(image, Tran(16)).map(drop),
        |image| source(image, Tran(1), Rec(512)).map(drop),
        |image| holders(image, Tran(16), Rec(9)).map(drop),
        |_| Mask::of(&[Card(0), Card(8)]).map(drop),
    ];
    for call in calls {
        assert_refused(&opened(), call, Refusal::Range);
    }
}

/// The value is refused before the stop, before the transaction that is not open and before another's lock.
#[test]
fn value_outside_its_range_comes_first() {
    let stores: [Call; 2] =
        [|image| store(image, Tran(1), Rec(9), 65_535), |image| store(image, Tran(3), Rec(9), 65_535)];
    for call in stores {
        assert_refused(&locked(), call, Refusal::Range);
        assert_refused(&stopped_store(), call, Refusal::Range);
    }
    assert_refused(&locked(), |image| store(image, Tran(1), Rec(9), 65_534), Refusal::Locked);
    assert_refused(&locked(), |image| store(image, Tran(3), Rec(9), 65_534), Refusal::NotOpen);
    assert_refused(&stopped_store(), |image| store(image, Tran(1), Rec(9), 65_534), Refusal::Stopped);
}

#[test]
fn record_queries_are_refused_as_a_get() {
    for call in RECORD_QUERIES {
        assert_refused(&locked(), call, Refusal::Locked);
        let mut closed = locked();
        assert_eq!(rollback(&mut closed, Tran(1)), Ok(()));
        assert_refused(&closed, call, Refusal::NotOpen);
    }
}

#[test]
fn malformed_commands() {
    let calls: [Call; 7] = [
        |image| performed(image, &[0xF0, 0, 0, 0, 0]),
        |image| performed(image, &[0x01, 0, 0, 0, 0xE0]),
        |image| performed(image, &[0x00, 0, 0, 1, 0xE0]),
        |image| performed(image, &[0xD0, 0, 0, 0, 1]),
        |image| performed(image, &[]),
        |image| performed(image, &[0xD0, 0, 0, 0]),
        |image| performed(image, &[0xD0, 0, 0, 0, 0, 0]),
    ];
    for call in calls {
        assert_refused(&opened(), call, Refusal::Malformed);
        // Command form comes before the image's length.
        assert_refused(&[], call, Refusal::Malformed);
    }
}

/// Refusals that no test above has.
#[test]
fn conditions_of_single_calls() {
    let cases: [(Call, Refusal); 6] = [
        (|image| begin(image, Tran(1), Card(0)), Refusal::AlreadyOpen),
        (|image| begin(image, Tran(3), Card(3)), Refusal::Card),
        (|image| start(image, Mask(0x80)), Refusal::Placement),
        (|image| place(image, Mask(0xF0)), Refusal::Placement),
        (|image| move_block(image, Card(0), Block(1)).map(drop), Refusal::NotHeld),
        (|image| move_block(image, Card(1), Block(1)).map(drop), Refusal::CopyLocked),
    ];
    for (call, refusal) in cases {
        assert_refused(&locked(), call, refusal);
    }
}

/// Three placements: the first block that is stored has to move, and card 3 is a home outside the newest.
#[test]
fn conditions_on_placements() {
    let mut image = opened();
    assert_eq!(fit(&mut image, Card(3)), Ok(()));
    assert_eq!(store(&mut image, Tran(1), Rec(9), 4660), Ok(()));
    assert_eq!(commit(&mut image, Tran(1)), Ok(()));
    assert_eq!(place(&mut image, Mask(0x90)), Ok(()));
    assert_eq!(begin(&mut image, Tran(1), Card(3)), Ok(()));
    assert_refused(&image, |image| settle(image).map(drop), Refusal::Unsettled);
    assert_refused(&image, |image| move_list(image, &mut []).map(drop), Refusal::List);
    assert_eq!(place(&mut image, Mask(0xE0)), Ok(()));
    assert_refused(&image, |image| place(image, Mask(0xC0)), Refusal::Active);
    let mut list = [Move::default(); MOST_MOVES];
    let moves = move_list(&image, &mut list);
    let Ok(Moves::Listed(moves)) = moves else { panic!("{moves:?}") };
    for Move { card, block } in moves {
        assert!(move_block(&mut image, *card, *block).is_ok());
    }
    assert_eq!(settle(&mut image), Ok(2));
    assert_refused(&image, |image| withdraw(image, Card(3)), Refusal::Home);
}
