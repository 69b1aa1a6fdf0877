//! before: a Markdown table of each call's time and instructions by the archive of an earlier commit ("before") and by
//! the present archive ("after"). The model takes its turn too, so that "after" is timed as bench times Rattle. An
//! earlier archive has images of its own length, and one from before tables, in a state with a table, those of the same
//! store without it.
//! before count CASE SIDE COPIES: the calls of one case on so many copies, for callgrind.

use bench::answers::compared;
use bench::cases::{cases, Case};
use bench::sides::{Side, BEFORE, MODEL, RATTLE};
use bench::{counting, program, timing};

/// In the order of the turns.
const TIMED: [Side; 3] = [BEFORE, RATTLE, MODEL];

/// In the order of the table's columns.
const COUNTED: [Side; 2] = [BEFORE, RATTLE];

/// Without a figure of the earlier archive, which lacks the call, that of this one alone.
fn cells([before, after]: [f64; 2]) -> String {
    if before.is_nan() {
        return format!("- | {after:.0} | -");
    }
    format!("{before:.0} | {after:.0} | {:.2}", after / before)
}

fn row(at: usize, case: &Case, answers: &str, [before, after, _]: [f64; 3]) {
    let instructions = match case.image_of(BEFORE) {
        Some(_) => counting::instructions(at, COUNTED, case.shares()),
        None => counting::instructions(at, [RATTLE], case.shares()).map(|[after]| [f64::NAN, after]),
    };
    let counted = instructions.map_or("- | - | -".to_string(), cells);
    println!("| {} | {} | {answers} | {} | {counted} |", case.state, case.call, cells([before, after]));
}

/// By both archives, which answer as the model does.
fn answers(case: &Case) -> String {
    if case.image_of(BEFORE).is_some() {
        compared(BEFORE, case);
    }
    compared(RATTLE, case)
}

fn table() {
    let all = cases();
    let answers: Vec<String> = all.iter().map(answers).collect();
    let times = timing::medians(&all, |case| timing::pass(TIMED, case));
    print!("| state | call | answer | before ns | after ns | after/before ");
    println!("| before instr. | after instr. | after/before |");
    println!("|---|---|---|---|---|---|---|---|---|");
    for (at, case) in all.iter().enumerate() {
        row(at, case, &answers[at], times[at]);
    }
}

fn count(at: usize, side: &str, copies: usize) -> Option<()> {
    counting::run_case(&COUNTED, at, side, copies)
}

fn main() {
    program::main("before", table, count);
}
