//! The generated files reach all that can happen, and follow from their seeds.

use model::kinds::{generate, KINDS};
use model::tally::Tally;

#[test]
fn all_that_can_happen() {
    let mut tally = Tally::default();
    for (_, kind) in KINDS {
        for seed in 1..=6 {
            tally.add(&generate(kind, seed, 4_000));
        }
    }
    assert_eq!(tally.missing(), Vec::<String>::new());
    assert_eq!(tally.impossible(), Vec::<String>::new());
}

#[test]
fn same_seed_same_file() {
    for (_, kind) in KINDS {
        assert!(generate(kind, 5, 300) == generate(kind, 5, 300));
        assert!(generate(kind, 5, 300) != generate(kind, 6, 300));
        let whole = generate(kind, 5, 300).len();
        assert_eq!(whole / 5, 300);
    }
}
