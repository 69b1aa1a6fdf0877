//! The clauses by name say what the control form says, and each can be broken alone.

use model::clauses::{broken, broken_control, CLAUSES};
use model::control::{Control, FORM};
use model::edition::Edition;
use model::images::whole_control;
use model::random::Random;

#[test]
fn whole_form_breaks_no_clause() {
    let mut random = Random::new(1);
    for round in 0..2_000 {
        let bytes = whole_control(&mut random, 1 + round % 4, round % 8 < 4);
        assert_eq!(broken(&bytes), []);
    }
}

#[test]
fn each_clause_alone_breaks_the_form() {
    let mut random = Random::new(2);
    for clause in CLAUSES {
        for _ in 0..200 {
            let bytes = broken_control(&mut random, clause);
            assert!(Control::of_form(Edition::Today, &bytes).is_none(), "{clause:?} {bytes:?}");
        }
    }
}

#[test]
fn form_is_the_clauses_together() {
    let mut random = Random::new(3);
    for round in 0..300_000 {
        let mut bytes = whole_control(&mut random, 1 + round % 4, round % 8 < 4);
        for _ in 0..1 + random.below(3) {
            let at = if random.chance(500) { random.below(32) } else { random.below(FORM) };
            bytes[at] ^= 1 << random.below(8);
        }
        assert_eq!(broken(&bytes).is_empty(), Control::of_form(Edition::Today, &bytes).is_some(), "{bytes:?}");
    }
}
