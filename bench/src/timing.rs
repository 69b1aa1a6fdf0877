//! Median times by the sides, in turns.

use crate::cases::Case;
use crate::sides::{Lent, Side};
use std::array::from_fn;
use std::hint::black_box;
use std::time::Instant;

/// Copies of the image, restored before each round. They fit a second-level cache.
pub const COPIES: usize = 8;

/// All cases are measured in each pass, so that a slow while of the machine falls on all of them.
const PASSES: usize = 31;

const ROUNDS_IN_A_PASS: usize = 11;

/// Rounds of a pass that do not count.
const WARM_UP: usize = 2;

/// The median of each side's times, for each case. A pass gives its rounds, and a round has a time for each side.
pub fn medians<C, const N: usize>(cases: &[C], pass: impl Fn(&C) -> Vec<[f64; N]>) -> Vec<[f64; N]> {
    let mut all: Vec<Vec<[f64; N]>> = vec![Vec::new(); cases.len()];
    for _ in 0..PASSES {
        for (rounds, case) in all.iter_mut().zip(cases) {
            rounds.extend(pass(case));
        }
    }
    let of_side = |rounds: &[[f64; N]], side: usize| median(rounds.iter().map(|round| round[side]).collect());
    all.iter().map(|rounds| from_fn(|side| of_side(rounds, side))).collect()
}

fn median(mut times: Vec<f64>) -> f64 {
    times.sort_by(f64::total_cmp);
    times[times.len() / 2]
}

/// The calls on every copy; all that is timed.
#[inline(never)]
pub fn run(side: Side, copies: &mut [Vec<u8>], lent: &mut Lent, case: &Case) {
    for image in copies {
        for call in &case.calls {
            black_box((side.perform)(image, lent, black_box(call)));
        }
    }
}

/// Nanoseconds of one call, or of the whole list; no number where the side has no image.
fn round(side: Side, first: &Option<Vec<u8>>, copies: &mut [Vec<u8>], lent: &mut Lent, case: &Case) -> f64 {
    let Some(first) = first else { return f64::NAN };
    for image in copies.iter_mut() {
        image.clone_from(first);
    }
    let start = Instant::now();
    run(side, copies, lent, case);
    start.elapsed().as_nanos() as f64 / (copies.len() * case.shares()) as f64
}

/// The rounds of a pass that count.
pub fn pass<const N: usize>(sides: [Side; N], case: &Case) -> Vec<[f64; N]> {
    let mut copies = vec![case.image.clone(); COPIES];
    let mut lent = Lent::default();
    let images = sides.map(|side| (side, case.image_of(side)));
    let mut in_turns = || images.each_ref().map(|(side, first)| round(*side, first, &mut copies, &mut lent, case));
    for _ in 0..WARM_UP {
        in_turns();
    }
    (0..ROUNDS_IN_A_PASS).map(|_| in_turns()).collect()
}
