//! Random images and calls, also such as no list of calls reaches.

use crate::calls::{Call, Numbers};
use crate::control::{bit, count, form_of, put_form, stamp, Control, Form, FORM, HIGHEST_SERIAL, NO_HOMES};
use crate::edition::{Edition, BROKEN_WIRE, SERIALS_END};
use crate::image::*;
use crate::random::Random;
use crate::sites::{members, sites, Choice, Pairs, Placement};

/// An image of the right length; its control form is often whole.
pub fn random_image(random: &mut Random) -> Vec<u8> {
    let mut image = vec![0; LENGTH];
    random_control(random, &mut image);
    random_tables(random, &mut image);
    image
}

/// Now and then a mask of few members, so that placements of two occur.
fn random_mask(random: &mut Random, from: u8) -> u8 {
    let (one, other) = (random.byte(), random.byte());
    from & if random.chance(250) { one & other } else { one | other }
}

/// Masks of which few break the form. Those of a stopped store have failed cards more often.
fn random_masks(random: &mut Random, number: usize, stopped: bool, working: u8, failed: u8) -> Vec<u8> {
    let from = if stopped { working | failed } else { working };
    let mut masks = Vec::new();
    for _ in 0..number {
        let mut mask = random_mask(random, from);
        if random.chance(500) {
            mask |= failed & bit(random.below(CARDS));
        }
        masks.push(mask);
    }
    let newest = masks[number - 1] & from;
    masks[number - 1] = newest;
    if let (4, Some(card)) = (number, random.any_of(&members(failed & !newest))) {
        masks[2] = newest | bit(card);
    }
    masks
}

/// Any of the three kinds; a table needs two members.
fn random_choice(random: &mut Random, mask: u8) -> Choice {
    match random.below(3) {
        0 => Choice::Chained,
        1 if members(mask).len() > 1 => Choice::Table(random_pairs(random, mask)),
        _ => Choice::Rails,
    }
}

/// Any two different members for each block; now and then few of the members.
pub fn random_pairs(random: &mut Random, mask: u8) -> Pairs {
    let mut cards = members(mask);
    random.shuffle(&mut cards);
    if random.chance(300) {
        cards.truncate(2 + random.below(cards.len() - 1));
    }
    std::array::from_fn(|_| {
        random.shuffle(&mut cards);
        [cards[0] as u8, cards[1] as u8]
    })
}

/// Most often a small one; now and then near one of the bounds, where few break the form.
fn random_serial(random: &mut Random, placements: &[Placement]) -> u32 {
    let (active, members) = (placements.len() as u32, placements.last().map_or(0, |newest| count(newest.mask)) as u32);
    match random.below(12) {
        0 => random.below(1 << 24) as u32,
        1 | 2 => SERIALS_END - 4 + random.below(8) as u32,
        3 | 4 => HIGHEST_SERIAL - members - random.below(4) as u32,
        5 => (active + random.below(4) as u32).saturating_sub(1),
        _ => active + random.below(300) as u32,
    }
}

/// A control part whose form is often whole.
fn random_parts(random: &mut Random, number: usize, stopped: bool) -> Control {
    let mut failed = 0;
    for _ in 0..random.below(4) {
        failed |= bit(random.below(CARDS));
    }
    let mut working = (random.byte() | random.byte() | random.byte()) & !failed;
    if stopped && random.chance(200) {
        // Few cards are left, or none.
        working &= bit(random.below(CARDS)) | bit(random.below(CARDS));
    }
    let masks = random_masks(random, number, stopped, working, failed);
    // All kinds occur, in any order, as no list of calls leaves them.
    let placements: Vec<Placement> =
        masks.into_iter().map(|mask| Placement { mask, choice: random_choice(random, mask) }).collect();
    let mut homes = NO_HOMES;
    for home in &mut homes[1..] {
        if !stopped && working != 0 && random.chance(300) {
            *home = Some(random.one_of(&members(working)) as u8);
        }
    }
    let serial = random_serial(random, &placements);
    Control { stopped, placements, working, failed, homes, serial }
}

/// The bytes of a form that is whole, with this many active placements.
pub fn whole_control(random: &mut Random, number: usize, stopped: bool) -> Form {
    loop {
        let form = random_parts(random, number, stopped).form();
        if Control::of_form(Edition::Today, &form).is_some() {
            return form;
        }
    }
}

fn random_control(random: &mut Random, image: &mut [u8]) {
    let number = 1 + random.below(4);
    let stopped = random.chance(50);
    random_parts(random, number, stopped).write(image);
    if random.chance(30) {
        let mut form = form_of(image);
        form[random.below(FORM)] ^= 1 << random.below(8);
        put_form(image, &form);
    }
}

/// Stamps of all kinds: most often that of the newest placement, else one that is stale in one of its ways.
fn random_stamps(random: &mut Random, image: &mut [u8]) {
    let Some(control) = Control::read(image) else { return };
    let (serial, mask) = (control.serial, control.newest().mask);
    let step = 1 + random.below(3) as u32;
    for card in 0..CARDS {
        let mut found = control.stamp();
        match random.below(12) {
            0 => random.fill(&mut found),
            1 => found = [0; STAMP_BYTES],
            2 => found = stamp(serial.saturating_sub(step), mask),
            3 => found = stamp(serial + step, mask),
            4 => found = stamp(serial, mask ^ bit(random.below(CARDS))),
            5 => found[random.below(STAMP_BYTES)] ^= bit(random.below(8)),
            _ => {}
        }
        image[stamp_at(card)].copy_from_slice(&found);
    }
}

/// Random bytes into the tables of the cards marked failed, stamps too. No call reads them before a fit or a return.
pub fn disturb(random: &mut Random, image: &mut [u8]) {
    for card in members(image[6]) {
        let bytes = &mut image[table_at(card)];
        match random.below(6) {
            0 => random.fill(bytes),
            1 => bytes.fill(0),
            2 => bytes.fill(0xFF),
            // One bit of the stamp, and nothing else.
            3 | 4 => bytes[BLOCKS_BYTES + random.below(STAMP_BYTES)] ^= bit(random.below(8)),
            _ => {
                for _ in 0..20 {
                    let at = random.below(TABLE_BYTES);
                    bytes[at] = random.byte();
                }
            }
        }
    }
}

/// Now and then 65,535, committed or pending or both; most often the slot is unlocked.
fn random_slot(random: &mut Random, slot: &mut Slot, locked: usize) {
    let broken = random.below(10);
    if broken < 2 {
        slot.value = BROKEN_WIRE;
    }
    if (1..3).contains(&broken) {
        slot.pending_value = BROKEN_WIRE;
    }
    if !random.chance(locked) {
        slot.lock = 0;
    }
}

/// Tables of any bytes, with few held blocks and few locks, and stamps of all kinds where there are some.
pub fn random_tables(random: &mut Random, image: &mut [u8]) {
    let layout = Layout::of(image);
    random.fill(&mut image[layout.tables()]);
    let dense = random.one_of(&[20, 200, 500, 1000]);
    let locked = random.one_of(&[0, 20, 300]);
    for card in 0..CARDS {
        for block in 0..BLOCKS {
            if !random.chance(dense) {
                image[layout.block_at(card, block).start] &= 0x7F;
            }
            for place in 0..PLACES {
                change_slot(image, card, block, place, |slot| random_slot(random, slot, locked));
            }
        }
    }
    if !layout.has_stamps() {
        return;
    }
    random_stamps(random, image);
    if random.chance(200) {
        if let Some(control) = Control::read(image) {
            tidy(random, image, control.newest());
        }
    }
}

/// Each block is held by both sites of the placement or by no card.
fn tidy(random: &mut Random, image: &mut [u8], placement: Placement) {
    for block in 0..BLOCKS {
        let pair = sites(placement, block);
        let held = random.chance(500);
        for card in 0..CARDS {
            let first = &mut image[block_at(card, block).start];
            *first = *first & 0x7F | if held && pair.contains(&card) { 0x80 } else { 0 };
        }
    }
}

/// Numbers that are mostly in their ranges.
pub fn random_numbers(random: &mut Random) -> Numbers {
    let transaction = if random.chance(900) { 1 + random.below(15) as u8 } else { random.one_of(&[0, 16, 255]) };
    let card = if random.chance(950) { random.below(8) as u8 } else { random.one_of(&[8, 9, 15, 16, 255]) };
    let record = if random.chance(950) { random.below(512) as u16 } else { random.one_of(&[512, 513, 4095, 65535]) };
    let block = if random.chance(950) { random.below(64) as u16 } else { random.one_of(&[64, 255, 4095, 65535]) };
    let ends = [0, 1, 0x8000, 65534, 65535, 65535];
    let value = if random.chance(850) { random.below(0x1_0000) as u16 } else { random.one_of(&ends) };
    Numbers { transaction, card, record, block, value, mask: random.byte() }
}

/// A call whose numbers are mostly in their ranges.
pub fn random_call(random: &mut Random) -> Call {
    let numbers = random_numbers(random);
    Call::of(random.below(15) as u8, &numbers).expect("operations 0 to 14")
}
