//! One run: requests on a pair of images, counted, with what differs printed.

use crate::cases::Cases;
use crate::pair::{Outcome, Pair, Request};
use crate::{protection, questions};
use model::random::Random;
use std::fmt::Debug;

/// Differences beyond these are counted and not printed.
const PRINTED: usize = 10;

pub struct Run {
    pub seed: u64,
    pub random: Random,
    pub cases: Cases,
    /// Requests so far.
    pub calls: usize,
    /// Move lists asked for so far.
    pub lists: usize,
    /// Questions so far.
    pub questions: usize,
    /// Conversions so far.
    pub conversions: usize,
    /// Calls in lists behind a first stop, with no start since.
    pub behind_stops: usize,
    pub differences: usize,
}

impl Run {
    pub fn new(seed: u64) -> Run {
        Run {
            seed,
            random: Random::new(seed),
            cases: Cases::default(),
            calls: 0,
            lists: 0,
            questions: 0,
            conversions: 0,
            behind_stops: 0,
            differences: 0,
        }
    }

    pub fn perform(&mut self, pair: &mut Pair, request: &Request) -> Outcome {
        self.calls += 1;
        let outcome = pair.perform(request);
        self.cases.add_answer(request, outcome.code);
        if !outcome.same() {
            self.report(request, &outcome.to_string());
        }
        protection::check(self, request, pair.archive_image(), outcome.code);
        questions::check(self, pair.archive_image());
        outcome
    }

    pub fn report(&mut self, request: &impl Debug, what: &str) {
        self.differences += 1;
        if self.differences <= PRINTED {
            println!("difference: seed {}, call {}, {request:?}: {what}", self.seed, self.calls);
        }
    }
}
