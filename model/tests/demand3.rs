//! Demand 3: the store answers as the plain record list does, stops exactly when the rule says and goes on through
//! stops, with any bytes in the tables of failed cards, as long as a card that is taken back has those of its failing.
//! Beyond it, state says what the plain list's cards and placements call for. The lists are those of the differential
//! run, also from images that earlier calls left.

use model::at_failing::AtFailing;
use model::broken_wire_situations::{broken_wire_situations, LEFT_BROKEN_WIRE, NO_BROKEN_WIRE};
use model::calls::{perform, Answer, Call};
use model::commands::read_command;
use model::control::Control;
use model::edition::Edition;
use model::images::disturb;
use model::lists::{List, Lists, Step};
use model::plain::Expected;
use model::protection_situations::{protection_situations, PROTECTION};
use model::rail_situations::{rail_situations, OVER_OLD};
use model::random::Random;
use model::return_situations::{return_situations, stopped_situations, RETURNS, WHILE_STOPPED};
use model::returns::return_card;
use model::table::place_by_table;
use model::table_situations::{placing_situations, table_situations, PLACINGS, WITH_TABLES};
use std::collections::BTreeMap;

#[derive(Debug, Default)]
struct Seen {
    calls: usize,
    compared: usize,
    stops: usize,
    noisy: usize,
    from_older: usize,
    by_table: usize,
    returns: usize,
    behind_stops: usize,
    read_behind_stops: usize,
    situations: BTreeMap<String, usize>,
}

impl Seen {
    fn add_situations(&mut self, before: &[u8], call: &Call, answer: &Answer) {
        let mut names: Vec<String> =
            broken_wire_situations(before, call, answer).into_iter().map(String::from).collect();
        let in_range = call.in_range(Edition::Today);
        if let Some(control) = Control::read(before).filter(|control| !control.stopped && in_range) {
            names.extend(rail_situations(&control, call, answer));
            names.extend(table_situations(&control, call, answer));
            names.extend(protection_situations(&control, call, answer));
        }
        names.extend(stopped_situations(before, call, answer));
        self.add(names);
    }

    fn add(&mut self, names: Vec<String>) {
        for name in names {
            *self.situations.entry(name).or_insert(0) += 1;
        }
    }
}

fn run(list: &mut List, random: &mut Random, calls: usize, seen: &mut Seen) {
    let mut image = list.image().to_vec();
    let mut at_failing = AtFailing::new(&image);
    for _ in 0..calls {
        seen.calls += 1;
        seen.behind_stops += list.is_behind_a_stop() as usize;
        let step = list.next_step();
        if Control::read(&image).is_some() {
            disturb(random, &mut image);
            seen.noisy += (image[6] != 0) as usize;
        }
        match step {
            Step::Command(bytes) => {
                if let Some(call) = read_command(&bytes) {
                    run_call(list, &mut image, &call, seen);
                }
            }
            Step::Table(lines) => run_table(list, &mut image, &lines, seen),
            Step::Return { card, kept } => {
                let kept = at_failing.prepare_return(&mut image, card, kept);
                run_return(list, &mut image, card, kept, seen);
            }
        }
        at_failing.note(&image);
    }
}

fn run_return(list: &mut List, image: &mut [u8], card: u8, kept: bool, seen: &mut Seen) {
    let before = image.to_vec();
    let answer = return_card(image, card);
    seen.add(return_situations(&before, card, &answer));
    if let Some(expected) = list.expect_return(card, kept) {
        seen.returns += 1;
        assert_eq!(answer, expected, "{}: return {card}, {kept}", list.name);
        assert_cards(list, image, &format!("return {card}"));
    }
}

/// Working, failed and active, the serial and whether the store runs are as the plain list has them.
fn assert_cards(list: &List, image: &[u8], what: &str) {
    let (name, plain) = (list.name, list.plain.as_ref().expect("after a start"));
    let control = Control::read(image).expect("the form is whole");
    assert_eq!(control.working, plain.working, "{name}: {what}");
    assert_eq!(control.failed, plain.failed, "{name}: {what}");
    assert_eq!(control.placements, plain.active, "{name}: {what}");
    assert_eq!((control.serial, control.stopped), (plain.serial, plain.stopped), "{name}: {what}");
}

fn run_call(list: &mut List, image: &mut [u8], call: &Call, seen: &mut Seen) {
    let before = image.to_vec();
    let answer = perform(image, call);
    seen.add_situations(&before, call, &answer);
    if let Some(expected) = list.expect(call) {
        seen.compared += 1;
        seen.stops += (expected == Expected::Stops) as usize;
        let read = matches!(expected, Expected::Exactly(Answer::Value(_)));
        seen.read_behind_stops += (read && list.is_behind_a_stop()) as usize;
        compare(list, call, answer, expected, image);
    }
}

fn run_table(list: &mut List, image: &mut [u8], lines: &[u8], seen: &mut Seen) {
    let control = Control::read(image);
    let answer = place_by_table(image, lines);
    if let Some(control) = control {
        seen.add(placing_situations(&control, lines, &answer));
    }
    if let Some(expected) = list.expect_table(lines) {
        seen.by_table += 1;
        assert_eq!(answer, expected, "{}: {lines:?}", list.name);
        assert_cards(list, image, "place by table");
    }
}

fn compare(list: &List, call: &Call, answer: Answer, expected: Expected, image: &[u8]) {
    let name = list.name;
    match expected {
        Expected::Exactly(wanted) => assert_eq!(answer, wanted, "{name}: {call:?}"),
        Expected::Stops => assert_eq!(answer, Answer::Stopped, "{name}: {call:?}"),
        Expected::Free => assert_ne!(answer, Answer::Stopped, "{name}: {call:?}"),
    }
    let plain = list.plain.as_ref().expect("after a start");
    if *call == Call::State {
        assert_eq!(answer, plain.state(), "{name}: {call:?}");
    }
    assert_cards(list, image, &format!("{call:?}"));
}

/// The lists of a seed up to this many calls.
fn run_lists(seed: u64, calls: usize) -> Seen {
    let mut seen = Seen::default();
    let mut random = Random::new(!seed);
    for mut list in Lists::new(seed) {
        let left = calls - seen.calls;
        if left == 0 {
            break;
        }
        let calls = list.calls.min(left);
        seen.from_older += if list.from_older() { calls } else { 0 };
        run(&mut list, &mut random, calls, &mut seen);
    }
    seen
}

/// Half as many calls in lists as a differential run has that must have met every class.
#[test]
fn every_situation_over_older_images_of_state_with_tables_and_of_stops() {
    let seen = run_lists(1, 100_000);
    let wanted = OVER_OLD.iter().chain(PROTECTION).chain(LEFT_BROKEN_WIRE).chain(NO_BROKEN_WIRE);
    let wanted = wanted.chain(WITH_TABLES).chain(PLACINGS).chain(RETURNS).chain(WHILE_STOPPED);
    let missing: Vec<_> = wanted.filter(|name| !seen.situations.contains_key(**name)).collect();
    assert!(missing.is_empty(), "{missing:?}");
}

#[test]
fn store_equals_plain_list() {
    let seen = run_lists(1000, 450_000);
    assert!(seen.compared > 200_000 && seen.stops > 100 && seen.noisy > 50_000, "{seen:?}");
    assert!(seen.by_table > 3_000 && seen.returns > 3_000, "{seen:?}");
    assert!(seen.behind_stops * 5 > seen.calls && seen.read_behind_stops > 5_000, "{seen:?}");
    assert!(seen.from_older * 4 > seen.calls && seen.from_older * 2 < seen.calls, "{seen:?}");
}
