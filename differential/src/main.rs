//! differential SEED CALLS: half of the calls on single images, half in long lists; then move lists and conversions.
//! differential move-lists SEED IMAGES: move lists on so many images alone.
//! Exit 1 on a difference, or if a run that is long enough misses a class of cases.

use differential::run::Run;
use differential::{broken_wire, conversions, lists, move_lists, protection, questions, returns, single, tables};
use std::process::exit;
use std::time::Instant;

/// A run of fewer calls need not meet every class.
const CALLS_FOR_ALL_CLASSES: usize = 400_000;

/// An image for the move list after so many calls.
const CALLS_BY_IMAGE: usize = 250;

/// A conversion after so many calls.
const CALLS_BY_CONVERSION: usize = 200;

/// At least one call in so many is behind a first stop.
const CALLS_BY_CALL_BEHIND: usize = 10;

const IMAGES_FOR_ALL_CLASSES: usize = CALLS_FOR_ALL_CLASSES / CALLS_BY_IMAGE;

/// All calls; what the run ought to have met and did not.
fn run_all(run: &mut Run, calls: usize) -> Vec<String> {
    let start = Instant::now();
    single::run(run, calls / 2);
    let middle = Instant::now();
    lists::run(run, calls - calls / 2);
    let last = Instant::now();
    move_lists::run(run, calls / CALLS_BY_IMAGE);
    let images = last.elapsed().as_secs_f64();
    conversions::run(run, calls / CALLS_BY_CONVERSION);
    run.cases.print();
    let (single, lists) = ((middle - start).as_secs_f64(), (last - middle).as_secs_f64());
    println!("seed {}: {} calls, {single:.1} s single, {lists:.1} s lists", run.seed, run.calls);
    println!("{} questions on images that requests left", run.questions);
    println!("{} move lists in lists and on {} images, {images:.1} s on images", run.lists, calls / CALLS_BY_IMAGE);
    println!("{} conversions", run.conversions);
    println!("{} calls behind a first stop", run.behind_stops);
    let named = [
        single::argument_classes(),
        lists::classes(),
        tables::classes(),
        returns::classes(),
        conversions::classes(),
        protection::classes(),
        broken_wire::classes(),
        questions::classes(),
        move_lists::image_classes(),
    ];
    let mut faults = run.cases.faults(&single::image_classes(), &named.concat());
    if run.behind_stops * CALLS_BY_CALL_BEHIND < run.calls {
        faults.push(format!("only {} of {} calls behind a first stop", run.behind_stops, run.calls));
    }
    faults
}

/// Move lists alone.
fn run_move_lists(run: &mut Run, images: usize) -> Vec<String> {
    let start = Instant::now();
    move_lists::run(run, images);
    run.cases.print_named();
    let seconds = start.elapsed().as_secs_f64();
    println!("seed {}: {} move lists on {images} images, {seconds:.1} s", run.seed, run.lists);
    run.cases.missing(&move_lists::image_classes())
}

/// The run that the words ask for, what it missed, and whether it is long enough to meet every class.
fn run_of(words: &[String]) -> Option<(Run, Vec<String>, bool)> {
    let (alone, numbers) = match words {
        [mode, numbers @ ..] if mode == "move-lists" => (true, numbers),
        numbers => (false, numbers),
    };
    let [seed, size] = numbers else { return None };
    let (mut run, size) = (Run::new(seed.parse().ok()?), size.parse().ok()?);
    let faults = if alone { run_move_lists(&mut run, size) } else { run_all(&mut run, size) };
    let enough = if alone { IMAGES_FOR_ALL_CLASSES } else { CALLS_FOR_ALL_CLASSES };
    Some((run, faults, size >= enough))
}

fn main() {
    let words: Vec<String> = std::env::args().skip(1).collect();
    let Some((run, faults, long_enough)) = run_of(&words) else {
        eprintln!("usage: differential SEED CALLS | differential move-lists SEED IMAGES");
        exit(2);
    };
    for fault in &faults {
        println!("fault of the run: {fault}");
    }
    println!("{} differences, {} faults of the run", run.differences, faults.len());
    exit(if run.differences > 0 || long_enough && !faults.is_empty() { 1 } else { 0 });
}
