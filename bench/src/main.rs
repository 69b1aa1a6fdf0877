//! bench: a Markdown table of each call's time and instructions, Rattle beside the model.
//! bench count CASE SIDE COPIES: the calls of one case on so many copies, for callgrind.

use bench::answers::compared;
use bench::cases::{cases, Case};
use bench::sides::{Side, MODEL, RATTLE};
use bench::{counting, program, timing};

/// In the order of the table's columns.
const SIDES: [Side; 2] = [RATTLE, MODEL];

fn cells([rattle, model]: [f64; 2]) -> String {
    format!("{rattle:.0} | {model:.0} | {:.2}", rattle / model)
}

fn row(at: usize, case: &Case, answers: &str, times: [f64; 2]) {
    let instructions = counting::instructions(at, SIDES, case.shares());
    let counted = instructions.map_or("- | - | -".to_string(), cells);
    println!("| {} | {} | {answers} | {} | {counted} |", case.state, case.call, cells(times));
}

fn table() {
    let all = cases();
    let answers: Vec<String> = all.iter().map(|case| compared(RATTLE, case)).collect();
    let times = timing::medians(&all, |case| timing::pass(SIDES, case));
    println!("| state | call | answer | Rattle ns | model ns | ratio | Rattle instr. | model instr. | ratio |");
    println!("|---|---|---|---|---|---|---|---|---|");
    for (at, case) in all.iter().enumerate() {
        row(at, case, &answers[at], times[at]);
    }
}

fn count(at: usize, side: &str, copies: usize) -> Option<()> {
    counting::run_case(&SIDES, at, side, copies)
}

fn main() {
    program::main("bench", table, count);
}
