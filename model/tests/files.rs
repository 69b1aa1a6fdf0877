//! The stored command files: their listings, and what answers they reach.

mod stored;

use model::calls::perform_by;
use model::commands::{read_command, COMMAND_BYTES};
use model::edition::Edition;
use model::kinds::KINDS;
use model::listing::listing;
use model::tally::Tally;
use model::{Answer, Call};
use stored::stored;

#[test]
fn stored_listings() {
    let mut tally = Tally::default();
    for (name, _) in KINDS {
        let (commands, stored) = stored(name);
        assert!(commands.len() >= 2_000 * 5);
        assert!(listing(&commands) == stored, "{name}");
        tally.add(&commands);
    }
    assert_eq!(tally.missing(), Vec::<String>::new());
    assert_eq!(tally.impossible(), Vec::<String>::new());
}

/// The file that ends within a command, behind more commands than the program reads at a time.
#[test]
fn cut_listing() {
    let (commands, stored) = stored("cut");
    assert!(commands.len() > 1_024 * COMMAND_BYTES && commands.len() % COMMAND_BYTES != 0);
    assert!(listing(&commands) == stored);
}

/// The calls of a command file that the editions answer differently, with the other's answers. State is left out: it
/// differs whatever the sites.
fn different(one: Edition, other: Edition, commands: &[u8]) -> Vec<(Call, Answer)> {
    let (mut by_one, mut by_other) = (vec![0; one.length()], vec![0; other.length()]);
    let calls = commands.chunks(COMMAND_BYTES).filter_map(read_command).filter(|call| *call != Call::State);
    let mut found = Vec::new();
    for call in calls {
        let answer = perform_by(other, &mut by_other, &call);
        if perform_by(one, &mut by_one, &call) != answer {
            found.push((call, answer));
        }
    }
    found
}

/// A program with the old choice of sites fails on every kind.
#[test]
fn answers_tell_the_rails() {
    for (name, _) in KINDS {
        let (commands, _) = stored(name);
        assert!(!different(Edition::Base, Edition::Rails, &commands).is_empty(), "{name}");
    }
}

/// A program that stores 65,535 fails on every kind, and first at a store of it.
#[test]
fn answers_tell_the_broken_wire() {
    for (name, _) in KINDS {
        let (commands, _) = stored(name);
        let first = different(Edition::Rails, Edition::Today, &commands).first().copied();
        let refused = matches!(first, Some((Call::Store { value: 65_535, .. }, Answer::Refused(3))));
        assert!(refused, "{name}: {first:?}");
    }
}
