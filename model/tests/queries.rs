//! What the questions are told on a store of known contents.

use model::queries::{ask, Query, Told};
use model::{perform, Answer, Call};

/// Cards 0 to 2 work; transaction 1 has its home on card 2 and has stored record 9, whose sites are cards 1 and 2.
fn used() -> Vec<u8> {
    let mut image = model::calls::started(0xE0);
    for call in [Call::Begin { transaction: 1, home: 2 }, Call::Store { transaction: 1, record: 9, value: 7 }] {
        assert_eq!(perform(&mut image, &call), Answer::Ok);
    }
    image
}

#[test]
fn control_part() {
    let image = used();
    let told = [
        (Query::Stopped, Told::Number(0)),
        (Query::PlacementCount, Told::Number(1)),
        (Query::Placement(0), Told::Number(0xE0)),
        (Query::Placement(1), Told::None),
        (Query::Placement(4), Told::Refused(3)),
        (Query::Working, Told::Number(0xE0)),
        (Query::Failed, Told::Number(0)),
        (Query::Home(1), Told::Number(2)),
        (Query::Home(2), Told::None),
        (Query::Home(0), Told::Refused(3)),
        (Query::FreeTransaction, Told::Number(2)),
    ];
    for (query, wanted) in told {
        assert_eq!(ask(&image, query), wanted, "{query:?}");
    }
}

#[test]
fn record() {
    let image = used();
    let source = |transaction, record| ask(&image, Query::Source { transaction, record });
    let holders = |transaction, record| ask(&image, Query::Holders { transaction, record });
    assert_eq!((source(1, 9), holders(1, 9)), (Told::Number(1), Told::Number(2)));
    assert_eq!((source(1, 0), holders(1, 0)), (Told::None, Told::Number(0)));
    assert_eq!((source(2, 9), holders(2, 512)), (Told::Refused(5), Told::Refused(3)));
}

#[test]
fn stopped_store() {
    let mut image = used();
    assert_eq!(perform(&mut image, &Call::Fail { card: 0 }), Answer::Placed(0x60));
    assert_eq!(perform(&mut image, &Call::Fail { card: 1 }), Answer::Stopped);
    assert_eq!(ask(&image, Query::Stopped), Told::Number(1));
    assert_eq!(ask(&image, Query::Failed), Told::Number(0xC0));
    assert_eq!(ask(&image, Query::FreeTransaction), Told::Number(1));
    assert_eq!(ask(&image, Query::Source { transaction: 1, record: 9 }), Told::Refused(4));
}

#[test]
fn no_store() {
    assert_eq!(ask(&[0; 7], Query::Working), Told::Refused(1));
    assert_eq!(ask(&vec![0; model::image::LENGTH], Query::Working), Told::Refused(2));
}
