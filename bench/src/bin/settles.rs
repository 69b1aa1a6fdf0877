//! settles: a Markdown table of the time of 10,000 settles and the instructions of one, by the archive of an earlier
//! commit ("before"), by the present archive ("after") and by the model.
//! settles count STATE SIDE COPIES: settles on so many copies of one state's image, for callgrind.

use bench::cases::{filled, place_and_move, reorganising};
use bench::sides::{named, Asked, Lent, Side, BEFORE, MODEL, RATTLE};
use bench::{counting, program, timing};
use model::converter::shortened;
use model::image::{BLOCKS, LENGTH};
use model::Call;
use nolpigat::Answer;
use std::hint::black_box;
use std::time::Instant;

/// In the order of the table's columns.
const SIDES: [Side; 3] = [BEFORE, RATTLE, MODEL];

/// Settles by each side in a timed round, all on one image, as by a panel that polls.
const TIMED: usize = 10_000;

/// The sides take turns of so many settles within a round, so that a slow while of the machine falls on all of them.
const TURN: usize = 100;

/// Settles on each copy for callgrind.
const COUNTED: usize = 4;

struct State {
    name: &'static str,
    image: Vec<u8>,
}

impl State {
    /// In the length that the side has.
    fn image_of(&self, side: Side) -> Vec<u8> {
        match side.length() {
            LENGTH => self.image.clone(),
            length => shortened(&self.image, length),
        }
    }
}

/// No settle changes these images: there is one placement, or a block has not moved.
fn states() -> Vec<State> {
    let half_of_eight = place_and_move(&filled(0xFF), [0x7E, 0x3C], BLOCKS / 2);
    vec![
        State { name: "eight cards, all in place", image: filled(0xFF) },
        State { name: "reorganising, half moved", image: reorganising(BLOCKS / 2) },
        State { name: "reorganising, all but the last block", image: reorganising(BLOCKS - 1) },
        State { name: "eight cards, half moved", image: half_of_eight },
    ]
}

fn settle(side: Side, image: &mut [u8], lent: &mut Lent) -> u32 {
    (side.perform)(image, lent, black_box(&Asked::Call(Call::Settle)))
}

/// The answer of every side, which leaves the image as found. So all settles of a round do the same.
fn answer(state: &State) -> Answer {
    let [before, after, model] = SIDES.map(|side| {
        let mut image = state.image_of(side);
        let answer = Answer::from(settle(side, &mut image, &mut Lent::default()));
        assert!(image == state.image_of(side), "{}, {}: the image is changed", state.name, side.name);
        answer
    });
    assert_eq!(before, model, "{}: before, model", state.name);
    assert_eq!(after, model, "{}: after, model", state.name);
    model
}

/// All that is timed and counted.
#[inline(never)]
fn settles(side: Side, image: &mut [u8], lent: &mut Lent, number: usize) {
    for _ in 0..number {
        black_box(settle(side, image, lent));
    }
}

/// One round: microseconds of each side's settles. The first of them are too few to need a warm-up.
fn pass(state: &State) -> Vec<[f64; 3]> {
    let (mut images, mut lent) = (SIDES.map(|side| state.image_of(side)), Lent::default());
    let mut round = [0.0; 3];
    for _ in 0..TIMED / TURN {
        for ((time, side), image) in round.iter_mut().zip(SIDES).zip(&mut images) {
            let start = Instant::now();
            settles(side, image, &mut lent, TURN);
            *time += start.elapsed().as_nanos() as f64 / 1000.0;
        }
    }
    vec![round]
}

/// The figures of the sides and the ratios of the second to the others.
fn cells([before, after, model]: [f64; 3]) -> String {
    format!("{before:.0} | {after:.0} | {model:.0} | {:.2} | {:.2}", after / before, after / model)
}

fn row(at: usize, state: &State, answer: Answer, times: [f64; 3]) {
    let instructions = counting::instructions(at, SIDES, COUNTED);
    let counted = instructions.map_or("- | - | - | - | -".to_string(), cells);
    println!("| {} | {answer} | {} | {counted} |", state.name, cells(times));
}

fn table() {
    let states = states();
    let answers: Vec<Answer> = states.iter().map(answer).collect();
    let times = timing::medians(&states, pass);
    print!("| state | answer | before us | after us | model us | after/before | after/model ");
    println!("| before instr. | after instr. | model instr. | after/before | after/model |");
    println!("|---|---|---|---|---|---|---|---|---|---|---|---|");
    for (at, state) in states.iter().enumerate() {
        row(at, state, answers[at], times[at]);
    }
}

fn count(at: usize, side: &str, copies: usize) -> Option<()> {
    let (all, side) = (states(), named(&SIDES, side)?);
    let mut lent = Lent::default();
    counting::run_on(&all.get(at)?.image_of(side), copies, |copies| {
        copies.iter_mut().for_each(|image| settles(side, image, &mut lent, COUNTED))
    });
    Some(())
}

fn main() {
    program::main("settles", table, count);
}
