//! Where the lists of demand 3 begin.

use model::control::Control;
use model::converter::{converted, CONVERTED_SERIAL};
use model::edition::{Edition, BROKEN_WIRE};
use model::image::{held_blocks, read_slot, Slot, PLACES};
use model::lists::{List, Lists, HISTORIES};
use model::sites::members;

/// Marks that a history can leave, where it leaves a mark at all places or at none.
fn all_marked(history: &[Edition]) -> Option<bool> {
    match history {
        [Edition::Base] => Some(false),
        [Edition::Rails] | [Edition::BelowWire] => Some(true),
        _ => None,
    }
}

/// A running store by the last edition's form, as the plain list has it, and converted.
fn check_beginning(list: &List) -> Control {
    let last = *list.history.last().expect("an older image");
    let older = list.older.as_ref().expect("an older image");
    let control = Control::read_by(last, older).expect("the form is whole");
    assert!(list.image() == converted(older));
    let today = Control { serial: CONVERTED_SERIAL, ..control.clone() };
    assert_eq!(Control::read(list.image()).as_ref(), Some(&today));
    assert!(!control.stopped);
    let plain = list.plain.as_ref().expect("the list goes on from a start");
    assert_eq!(control.placements, plain.active);
    if let Some(marked) = all_marked(list.history) {
        assert!(control.placements.iter().all(|placement| placement.is_by_rails() == marked));
    }
    control
}

/// Slots of working cards in held blocks.
fn slots(image: &[u8], control: &Control) -> Vec<Slot> {
    let blocks = |card: usize| held_blocks(image, card).into_iter().map(move |block| (card, block));
    let all = members(control.working).into_iter().flat_map(blocks);
    all.flat_map(|(card, block)| (0..PLACES).map(move |place| read_slot(image, card, block, place))).collect()
}

/// Each history leaves 1 to 4 active, and those that end before A.5 65,535 both committed and pending.
#[test]
fn older_images_are_those_of_their_editions() {
    let lists: Vec<List> = Lists::new(1).take(750).filter(List::from_older).collect();
    for history in HISTORIES {
        let (mut with_active, mut both_kinds, mut committed, mut pending) = ([0; 5], 0, 0, 0);
        for list in lists.iter().filter(|list| list.history == history) {
            let control = check_beginning(list);
            with_active[control.placements.len()] += 1;
            let marked = control.placements.iter().filter(|placement| placement.is_by_rails()).count();
            both_kinds += (marked > 0 && marked < control.placements.len()) as usize;
            let slots = slots(list.image(), &control);
            committed += slots.iter().any(|slot| slot.committed() == Some(BROKEN_WIRE)) as usize;
            pending += slots.iter().any(|slot| slot.lock != 0 && slot.pending() == Some(BROKEN_WIRE)) as usize;
        }
        assert!(with_active[1..].iter().all(|number| *number >= 10), "{history:?}: {with_active:?}");
        assert!(both_kinds > 10 || history.len() == 1, "{history:?}: {both_kinds}");
        let stored = history.iter().all(|edition| edition.stores(BROKEN_WIRE));
        assert!(!stored || committed > 40 && pending > 20, "{history:?}: {committed} committed, {pending} pending");
    }
}

#[test]
fn the_others_begin_with_zeros() {
    for list in Lists::new(1).take(30).filter(|list| !list.from_older()) {
        assert!(list.plain.is_none() && list.image().iter().all(|byte| *byte == 0));
    }
}

#[test]
fn same_seed_same_lists() {
    for (mut one, mut other) in Lists::new(7).zip(Lists::new(7)).take(10) {
        assert!(one.image() == other.image());
        assert!((0..100).all(|_| one.next_step() == other.next_step()));
    }
}
