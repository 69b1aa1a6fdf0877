//! Instructions of a call, by callgrind: the difference of two runs that differ in the copies they call on.

use crate::cases::cases;
use crate::sides::{named, Lent, Side};
use crate::timing;
use std::env::current_exe;
use std::process::Command;

/// Both runs make this many copies, so that making them cancels out.
const MADE: usize = 24;

const FEW: usize = 8;

/// Calls on this many of the copies; what callgrind runs.
pub fn run_on(image: &[u8], copies: usize, run: impl FnOnce(&mut [Vec<u8>])) {
    let mut images = vec![image.to_vec(); MADE];
    run(&mut images[..copies]);
}

/// The same for a case by its number and a side by its name; None if there is no such case or side.
pub fn run_case(sides: &[Side], at: usize, side: &str, copies: usize) -> Option<()> {
    let (all, side) = (cases(), named(sides, side)?);
    let case = all.get(at)?;
    run_on(&case.image_of(side)?, copies, |copies| timing::run(side, copies, &mut Lent::default(), case));
    Some(())
}

/// All instructions of a run; None without valgrind.
fn collected(at: usize, side: &str, copies: usize) -> Option<u64> {
    let output = Command::new("valgrind")
        .args(["--tool=callgrind", "--callgrind-out-file=/dev/null"])
        .arg(current_exe().ok()?)
        .args(["count", &at.to_string(), side, &copies.to_string()])
        .output()
        .ok()?;
    let text = String::from_utf8_lossy(&output.stderr).into_owned();
    text.lines().find_map(|line| line.split_once("Collected :"))?.1.trim().parse().ok()
}

/// Instructions of each side by the number of the case, divided by the shares of each copy; None without valgrind, or
/// where a side lacks the call.
pub fn instructions<const N: usize>(at: usize, sides: [Side; N], shares: usize) -> Option<[f64; N]> {
    let mut counts = [0.0; N];
    for (count, side) in counts.iter_mut().zip(sides) {
        let more = collected(at, side.name, MADE)? - collected(at, side.name, FEW)?;
        *count = (more / ((MADE - FEW) * shares) as u64) as f64;
    }
    Some(counts)
}
