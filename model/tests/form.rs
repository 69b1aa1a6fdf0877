//! Each clause of the control form, broken alone, gives 2 for every call but start.

use model::calls::{perform, Answer, Call};
use model::control::{stamp, SERIAL};
use model::image::{KEPT, LENGTH, OLDER_LENGTH, OLDEST_LENGTH};
use model::sites::{pack_pairs, Pairs};

const CALLS: [Call; 14] = [
    Call::Begin { transaction: 1, home: 0 },
    Call::Get { transaction: 1, record: 0 },
    Call::Store { transaction: 1, record: 0, value: 0 },
    Call::Delete { transaction: 1, record: 0 },
    Call::Commit { transaction: 1 },
    Call::Rollback { transaction: 1 },
    Call::Fit { card: 7 },
    Call::Withdraw { card: 7 },
    Call::Place { mask: 0xC0 },
    Call::Fail { card: 0 },
    Call::Move { card: 0, block: 0 },
    Call::Settle,
    Call::State,
    Call::Load { card: 0 },
];

/// A control part without open transactions: its first five bytes, working, failed. Its serial fits every count.
fn part(head: [u8; 5], working: u8, failed: u8) -> Vec<u8> {
    let mut image = vec![0; LENGTH];
    image[..5].copy_from_slice(&head);
    image[5] = working;
    image[6] = failed;
    image[25] = 7;
    image
}

fn broken(image: Vec<u8>) {
    for call in CALLS {
        let mut changed = image.clone();
        assert_eq!(perform(&mut changed, &call), Answer::Refused(2), "{:?} {call:?}", &image[..32]);
        assert!(changed == image);
    }
    // 2 comes before 3, and a start does not look.
    let mut changed = image.clone();
    assert_eq!(perform(&mut changed, &Call::Load { card: 8 }), Answer::Refused(2));
    assert_eq!(perform(&mut changed, &Call::Start { mask: 0x80 }), Answer::Refused(9));
    assert!(changed == image);
    assert_eq!(perform(&mut changed, &Call::Start { mask: 0xC0 }), Answer::Ok);
}

/// The form is kept: a state call answers, or 4 where stopped.
fn kept(image: Vec<u8>) {
    let answer = perform(&mut image.clone(), &Call::State);
    let wanted: &[Answer] = if image[0] & 0x80 != 0 {
        &[Answer::Refused(4)]
    } else {
        &[Answer::Protected, Answer::Unprotected]
    };
    assert!(wanted.contains(&answer), "{:?} {answer:?}", &image[..32]);
}

#[test]
fn count() {
    kept(part([0x10, 0xE0, 0, 0, 0], 0xE0, 0));
    broken(part([0x00, 0, 0, 0, 0], 0xE0, 0));
    broken(part([0x80, 0, 0, 0, 0], 0xE0, 0));
    for number in 5..8 {
        broken(part([number << 4, 0xF0, 0xF0, 0xF0, 0xE0], 0xE0, 0x10));
    }
    broken(vec![0; LENGTH]);
}

#[test]
fn zero_fields() {
    let good = part([0x10, 0xE0, 0, 0, 0], 0xE0, 0);
    kept(good.clone());
    let mut bits: Vec<usize> = (4..8).collect();
    bits.extend(7 * 8 + 1..8 * 8);
    bits.extend(26 * 8..32 * 8);
    for transaction in 1..=15 {
        // Home and zero bits of a closed transaction.
        bits.extend((7 + transaction) * 8 + 1..(8 + transaction) * 8);
    }
    for bit in bits {
        let mut image = good.clone();
        image[bit / 8] |= 0x80 >> (bit % 8);
        broken(image);
    }
    for transaction in 1..=15 {
        let mut image = good.clone();
        image[7 + transaction] = 0x80;
        kept(image.clone());
        for bit in 4..8 {
            let mut image = image.clone();
            image[7 + transaction] |= 0x80 >> bit;
            broken(image);
        }
    }
    // Unused masks.
    for number in 1u8..4 {
        for at in number as usize + 1..5 {
            let mut image = part([number << 4, 0, 0, 0, 0], 0xE0, 0);
            image[1..1 + number as usize].fill(0xE0);
            kept(image.clone());
            image[at] = 0xC0;
            broken(image);
        }
    }
}

#[test]
fn marks() {
    for number in 1u8..=4 {
        let masks = if number == 4 { [0xE0, 0xE0, 0xF0, 0xE0] } else { [0xE0; 4] };
        let mut image = part([number << 4, 0, 0, 0, 0], 0xE0, 0x10);
        image[1..1 + number as usize].copy_from_slice(&masks[..number as usize]);
        for stopped in [0, 0x80] {
            image[0] = stopped | number << 4;
            for marks in 0..=0xFF {
                image[7] = marks;
                // Nothing is kept, which is a table of equal cards.
                let beyond = 0xFFu8 >> number | 0x0F;
                if marks & beyond == 0 { kept(image.clone()) } else { broken(image.clone()) }
            }
        }
    }
}

/// With the pairs of each marked placement kept, tables are marked in the order of the rail marks.
#[test]
fn table_marks() {
    let pairs = pack_pairs(&[[0, 1]; 64]);
    for number in 1u8..=4 {
        let masks = if number == 4 { [0xE0, 0xE0, 0xF0, 0xE0] } else { [0xE0; 4] };
        let mut image = part([number << 4, 0, 0, 0, 0], 0xE0, 0x10);
        image[1..1 + number as usize].copy_from_slice(&masks[..number as usize]);
        for marks in 0..=0xFFu8 {
            image[7] = marks;
            for place in 0..4 {
                let marked = marks & 0x08 >> place != 0;
                image[KEPT][48 * place..48 * (place + 1)].copy_from_slice(if marked { &pairs } else { &[0; 48] });
            }
            let beyond = 0xFFu8 >> number & 0xF0 | 0x0F >> number;
            let both = marks >> 4 & marks & 0x0F != 0;
            if marks & beyond == 0 && !both { kept(image.clone()) } else { broken(image.clone()) }
        }
    }
}

/// A store of cards 0 to 2 whose newest placement is by table, over one by rails.
fn with_table(pairs: &Pairs) -> Vec<u8> {
    let mut image = part([0x20, 0xE0, 0xE0, 0, 0], 0xF0, 0);
    image[7] = 0x84;
    image[KEPT][48..96].copy_from_slice(&pack_pairs(pairs));
    image
}

#[test]
fn pairs() {
    for block in 0..64 {
        for first in 0..8 {
            for second in 0..8 {
                let mut pairs = [[2, 0]; 64];
                pairs[block] = [first, second];
                let image = with_table(&pairs);
                let good = first != second && first < 3 && second < 3;
                if good { kept(image) } else { broken(image) }
            }
        }
    }
}

#[test]
fn nothing_is_kept_without_a_table() {
    let image = with_table(&[[1, 2]; 64]);
    for bit in (0..48 * 8).chain(96 * 8..192 * 8) {
        let mut image = image.clone();
        image[KEPT][bit / 8] |= 0x80 >> (bit % 8);
        broken(image);
    }
    // The same pairs at a placement that is marked by rails, or not at all.
    for marks in [0x80, 0xC0, 0xC4, 0x88, 0x8C] {
        let mut image = image.clone();
        image[7] = marks;
        broken(image);
    }
}

/// Not below the count, and not above the bound with the newest placement's members added, stopped or not.
#[test]
fn serials() {
    let four = part([0x40, 0xF0, 0xE0, 0xF0, 0xE0], 0xE0, 0x10);
    let one = part([0x10, 0xFF, 0, 0, 0], 0xFF, 0);
    let stopped = part([0xB0, 0xF0, 0xF0, 0xC0, 0], 0xC0, 0x30);
    for (image, least, members) in [(four, 4, 3), (one, 1, 8), (stopped, 3, 2)] {
        let most = 16_777_008 - members;
        for (serial, good) in [
            (0, false), (least - 1, false), (least, true), (least + 1, true), (16_776_999, true), (16_777_000, true),
            (most - 1, true), (most, true), (most + 1, false), (16_777_008, false), (0xFF_FFFF, false),
        ] {
            let mut image = image.clone();
            image[SERIAL].copy_from_slice(&stamp(serial, 0)[..3]);
            if good { kept(image) } else { broken(image) }
        }
    }
}

#[test]
fn working_and_failed_share() {
    kept(part([0x10, 0xE0, 0, 0, 0], 0xE0, 0x01));
    broken(part([0x10, 0xE0, 0, 0, 0], 0xE1, 0x01));
    broken(part([0x90, 0xE0, 0, 0, 0], 0xE0, 0x20));
}

#[test]
fn members() {
    // Stopped, so that no other clause speaks.
    kept(part([0x90, 0xC0, 0, 0, 0], 0x80, 0x40));
    broken(part([0x90, 0x80, 0, 0, 0], 0x80, 0x40));
    broken(part([0x90, 0x00, 0, 0, 0], 0x80, 0x40));
    broken(part([0xA0, 0x40, 0xC0, 0, 0], 0x80, 0x40));
    // A member neither working nor failed.
    broken(part([0x90, 0xE0, 0, 0, 0], 0xC0, 0));
    kept(part([0x20, 0xE0, 0xC0, 0, 0], 0xE0, 0));
    kept(part([0x20, 0xE0, 0xC0, 0, 0], 0xC0, 0x20));
    broken(part([0x20, 0xE0, 0xC0, 0, 0], 0xC0, 0));
}

#[test]
fn third_and_fourth() {
    kept(part([0x40, 0xF0, 0xE0, 0xF0, 0xE0], 0xE0, 0x10));
    // No card more, a working card more, another card, and a card less.
    broken(part([0x40, 0xF0, 0xE0, 0xE0, 0xE0], 0xE0, 0x10));
    broken(part([0x40, 0xF0, 0xE0, 0xE0, 0xC0], 0xE0, 0x10));
    broken(part([0x40, 0xF0, 0xE0, 0xD0, 0xE0], 0xE0, 0x10));
    broken(part([0x40, 0xF0, 0xE0, 0xC0, 0xE0], 0xE0, 0x10));
    // One failed and one working card more.
    broken(part([0x40, 0xF0, 0xE0, 0xF0, 0xC0], 0xE0, 0x10));
    // Two failed cards more, stopped.
    kept(part([0xC0, 0xF0, 0xE0, 0xF0, 0xE0], 0xC0, 0x30));
    broken(part([0xC0, 0xF0, 0xE0, 0xF0, 0xC0], 0xC0, 0x30));
    // The clause holds for a stopped store too, and for four only.
    broken(part([0xC0, 0xF0, 0xE0, 0xE0, 0xC0], 0xE0, 0x10));
    kept(part([0x30, 0xF0, 0xE0, 0xC0, 0], 0xE0, 0x10));
}

#[test]
fn running() {
    // A failed member in the newest placement.
    broken(part([0x10, 0xE0, 0, 0, 0], 0xC0, 0x20));
    kept(part([0x90, 0xE0, 0, 0, 0], 0xC0, 0x20));
    // Two failed members in an older one.
    kept(part([0x20, 0xF0, 0xC0, 0, 0], 0xE0, 0x10));
    broken(part([0x20, 0xF0, 0xC0, 0, 0], 0xC0, 0x30));
    kept(part([0xA0, 0xF0, 0xC0, 0, 0], 0xC0, 0x30));
    // One working member in an older one.
    broken(part([0x20, 0xA0, 0xC0, 0, 0], 0xC0, 0x20));
    kept(part([0xA0, 0xA0, 0xC0, 0, 0], 0xC0, 0x20));
    // Failed cards are counted in each placement, not in the cabinet.
    kept(part([0x30, 0xE0, 0xD0, 0xC0, 0], 0xC0, 0x30));
}

#[test]
fn homes() {
    let mut image = part([0x10, 0xE0, 0, 0, 0], 0xE8, 0x10);
    for (home, good) in [(0, true), (2, true), (3, false), (4, true), (5, false), (7, false)] {
        image[8 + 6] = 0x80 | home << 4;
        if good { kept(image.clone()) } else { broken(image.clone()) }
    }
}

#[test]
fn stopped_and_open() {
    kept(part([0x90, 0xE0, 0, 0, 0], 0xE0, 0));
    for transaction in 1..=15 {
        let mut image = part([0x90, 0xE0, 0, 0, 0], 0xE0, 0);
        image[7 + transaction] = 0x80;
        broken(image);
    }
}

#[test]
fn length_comes_first() {
    for length in [0, 1, 31, 32, OLDEST_LENGTH, OLDER_LENGTH, LENGTH - 1, LENGTH + 1] {
        let mut image = vec![0; length];
        for call in CALLS {
            assert_eq!(perform(&mut image, &call), Answer::Refused(1));
        }
        assert_eq!(perform(&mut image, &Call::Start { mask: 0 }), Answer::Refused(1));
        assert_eq!(perform(&mut image, &Call::Start { mask: 0xFF }), Answer::Refused(1));
        assert!(image.iter().all(|byte| *byte == 0));
    }
    let image = part([0x90, 0xE0, 0, 0, 0], 0xE0, 0);
    // 3 comes before 4.
    assert_eq!(perform(&mut image.clone(), &Call::Load { card: 8 }), Answer::Refused(3));
    assert_eq!(perform(&mut image.clone(), &Call::Load { card: 7 }), Answer::Refused(4));
}
