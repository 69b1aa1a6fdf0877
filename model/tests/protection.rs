//! Change request A.2: protected means that failing any one working card would not stop the store.
//! The words of state are compared with what fails answer, each on a copy of the image.

mod reached;
mod stored;

use model::calls::{perform, perform_by};
use model::commands::{read_command, COMMAND_BYTES};
use model::control::{put_form, Control};
use model::edition::Edition;
use model::image::{CARDS, CONTROL, LENGTH};
use model::images::{random_tables, whole_control};
use model::kinds::KINDS;
use model::listing::{answer, line};
use model::protection_situations::{protection_situations, PROTECTION};
use model::random::Random;
use model::Answer::{self, Protected, Unprotected};
use model::Call::{self, *};
use reached::after;
use std::collections::BTreeSet;
use stored::stored;

/// The word by what a fail of each card answers on a copy of the image.
fn by_fails(image: &[u8]) -> Answer {
    let stops = |card: u8| perform(&mut image.to_vec(), &Fail { card }) == Answer::Stopped;
    if (0..CARDS as u8).any(stops) { Unprotected } else { Protected }
}

fn running(image: &[u8]) -> Option<Control> {
    Control::read(image).filter(|control| !control.stopped)
}

/// Name, calls, active placements after them, and the word of state.
const SITUATIONS: &[(&str, &[Call], usize, Answer)] = &[
    ("two cards", &[Start { mask: 0xC0 }], 1, Unprotected),
    ("three cards", &[Start { mask: 0xE0 }], 1, Protected),
    ("eight cards", &[Start { mask: 0xFF }], 1, Protected),
    ("two cards, one outside", &[Start { mask: 0xC0 }, Fit { card: 2 }], 1, Unprotected),
    ("three cards, one outside", &[Start { mask: 0xE0 }, Fit { card: 3 }], 1, Protected),
    ("a load move", &[Start { mask: 0xF0 }, Place { mask: 0x70 }], 2, Protected),
    ("a load move, one outside", &[Start { mask: 0xF0 }, Place { mask: 0x70 }, Fit { card: 7 }], 2, Protected),
    (
        "a load move to other cards",
        &[Start { mask: 0xE0 }, Fit { card: 5 }, Fit { card: 6 }, Fit { card: 7 }, Place { mask: 0x07 }],
        2,
        Protected,
    ),
    (
        "a load move with a record moved",
        &[
            Start { mask: 0xF0 },
            Begin { transaction: 1, home: 1 },
            Store { transaction: 1, record: 0, value: 9 },
            Commit { transaction: 1 },
            Place { mask: 0x70 },
            Move { card: 0, block: 0 },
        ],
        2,
        Protected,
    ),
    ("a load move, settled", &[Start { mask: 0xF0 }, Place { mask: 0x70 }, Settle], 1, Protected),
    ("two load moves", &[Start { mask: 0xF0 }, Place { mask: 0x70 }, Place { mask: 0xE0 }], 3, Protected),
    ("three cards, one failed", &[Start { mask: 0xE0 }, Fail { card: 1 }], 2, Unprotected),
    ("three cards, one failed, settled", &[Start { mask: 0xE0 }, Fail { card: 1 }, Settle], 1, Unprotected),
    ("four cards, one failed", &[Start { mask: 0xF0 }, Fail { card: 3 }], 2, Unprotected),
    ("four cards, one failed, one outside", &[Start { mask: 0xF0 }, Fit { card: 7 }, Fail { card: 3 }], 2, Unprotected),
    ("four cards, one failed, settled", &[Start { mask: 0xF0 }, Fail { card: 3 }, Settle], 1, Protected),
    (
        "four cards, one failed, settled, fitted",
        &[Start { mask: 0xF0 }, Fail { card: 3 }, Settle, Fit { card: 3 }],
        1,
        Protected,
    ),
    ("eight cards, one failed", &[Start { mask: 0xFF }, Fail { card: 0 }], 2, Unprotected),
    ("one failed in the older alone", &[Start { mask: 0xF0 }, Place { mask: 0xE0 }, Fail { card: 3 }], 2, Unprotected),
    (
        "one failed in an older of other cards",
        &[
            Start { mask: 0xE0 },
            Fit { card: 5 },
            Fit { card: 6 },
            Fit { card: 7 },
            Place { mask: 0x07 },
            Fail { card: 0 },
        ],
        2,
        Unprotected,
    ),
    (
        "an older placement of two other cards",
        &[Start { mask: 0xC0 }, Fit { card: 5 }, Fit { card: 6 }, Fit { card: 7 }, Place { mask: 0x07 }],
        2,
        Unprotected,
    ),
    (
        "an older placement of two",
        &[Start { mask: 0xC0 }, Fit { card: 2 }, Fit { card: 3 }, Place { mask: 0xF0 }],
        2,
        Unprotected,
    ),
    ("a newest placement of two", &[Start { mask: 0xF0 }, Place { mask: 0xC0 }], 2, Unprotected),
    (
        "a placement of two between",
        &[Start { mask: 0xF0 }, Place { mask: 0xC0 }, Place { mask: 0xF0 }],
        3,
        Unprotected,
    ),
    (
        "four active",
        &[Start { mask: 0xFF }, Place { mask: 0xFE }, Place { mask: 0xFF }, Fail { card: 7 }],
        4,
        Unprotected,
    ),
    (
        "four active, settled",
        &[Start { mask: 0xFF }, Place { mask: 0xFE }, Place { mask: 0xFF }, Fail { card: 7 }, Settle],
        1,
        Protected,
    ),
    ("two cards, a failed one outside", &[Start { mask: 0xC0 }, Fit { card: 2 }, Fail { card: 2 }], 1, Unprotected),
    ("three cards, a failed one outside", &[Start { mask: 0xE0 }, Fit { card: 3 }, Fail { card: 3 }], 1, Protected),
    (
        "a load move, a failed one outside",
        &[Start { mask: 0xF0 }, Place { mask: 0x70 }, Fit { card: 7 }, Fail { card: 7 }],
        2,
        Protected,
    ),
];

#[test]
fn words_of_named_situations() {
    for (name, calls, active, word) in SITUATIONS {
        let mut image = after(Edition::Today, calls);
        assert_eq!(running(&image).expect(name).placements.len(), *active, "{name}");
        assert_eq!(by_fails(&image), *word, "{name}");
        assert_eq!(perform(&mut image, &State), *word, "{name}");
    }
}

/// The base's call keeps the base's word.
#[test]
fn base_counts_placements() {
    for (name, calls, active, _) in SITUATIONS {
        let mut image = after(Edition::Base, calls);
        let word = if *active == 1 { Protected } else { Unprotected };
        assert_eq!(perform_by(Edition::Base, &mut image, &State), word, "{name}");
    }
}

fn assert_all_met(met: &BTreeSet<String>) {
    let missing: Vec<_> = PROTECTION.iter().filter(|name| !met.contains(**name)).collect();
    assert!(missing.is_empty(), "{missing:?}");
}

/// Running stores of any contents, also such as no list of calls reaches.
#[test]
fn words_of_random_stores() {
    let mut random = Random::new(1);
    let mut met = BTreeSet::new();
    for round in 0..4_000 {
        let mut image = vec![0; LENGTH];
        put_form(&mut image, &whole_control(&mut random, 1 + round % 4, false));
        random_tables(&mut random, &mut image);
        let before = image.clone();
        let word = perform(&mut image, &State);
        assert!(image == before);
        assert_eq!(word, by_fails(&image), "{:02X?}", &image[..CONTROL]);
        met.extend(protection_situations(&running(&image).unwrap(), &State, &word));
    }
    assert_all_met(&met);
}

/// Every state that is not refused, as its stored listing has it. A program with the base's word fails on every kind.
#[test]
fn words_of_stored_listings() {
    let mut met = BTreeSet::new();
    for (kind, _) in KINDS {
        let (commands, listing) = stored(kind);
        let mut image = vec![0; LENGTH];
        let mut others_by_base = 0;
        let lines = listing.split_inclusive('\n');
        for ((number, bytes), stored_line) in (1..).zip(commands.chunks(COMMAND_BYTES)).zip(lines) {
            if let (Some(State), Some(control)) = (read_command(bytes), running(&image)) {
                let word = by_fails(&image);
                assert_eq!(stored_line, line(number, bytes, &word), "{kind}");
                met.extend(protection_situations(&control, &State, &word));
                others_by_base += (Edition::Base.protected(&control) != (word == Protected)) as usize;
            }
            answer(&mut image, bytes);
        }
        assert!(others_by_base > 0, "{kind}");
    }
    assert_all_met(&met);
}
