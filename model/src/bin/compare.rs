//! compare PROGRAM KIND FIRST_SEED FILES COMMANDS: runs the program on generated
//! command files. Its standard output is to be the model's listing, its standard
//! error empty and its exit status 0. KIND 'all' takes each kind in turn and then
//! the bad inputs. The first difference is shown.

use model::commands::COMMAND_BYTES;
use model::kinds::{self, generate, Kind};
use model::listing::listing;
use model::random::Random;
use std::io::Write;
use std::process::{exit, Command, Output, Stdio};

/// How many commands before a difference are shown.
const SHOWN: usize = 40;

/// Seed of the bad inputs' noise.
const NOISE_SEED: u64 = 1;

const NOISE_COMMANDS: usize = 200_000;

fn run_program(program: &str, input: &[u8]) -> Result<Output, String> {
    let mut child = Command::new(program)
        .stdin(Stdio::piped())
        .stdout(Stdio::piped())
        .stderr(Stdio::piped())
        .spawn()
        .map_err(|error| format!("{program}: {error}"))?;
    let mut stdin = child.stdin.take().unwrap();
    // The writer runs beside, so that neither side waits on a full pipe.
    let output = std::thread::scope(|scope| {
        scope.spawn(move || {
            // A program that ends early shows in its output.
            let _ = stdin.write_all(input);
        });
        child.wait_with_output()
    });
    output.map_err(|error| format!("{program}: {error}"))
}

fn show(name: &str, expected: &str, found: &Output) {
    println!("difference: {name}, {}", found.status);
    if !found.stderr.is_empty() {
        println!("standard error: {}", String::from_utf8_lossy(&found.stderr));
    }
    let want: Vec<&[u8]> = expected.as_bytes().split_inclusive(|byte| *byte == b'\n').collect();
    let have: Vec<&[u8]> = found.stdout.split_inclusive(|byte| *byte == b'\n').collect();
    let same = want.iter().zip(&have).take_while(|(a, b)| a == b).count();
    if same == want.len() && same == have.len() {
        return;
    }
    let text = |line: Option<&&[u8]>| match line {
        Some(line) => format!("{:?}", String::from_utf8_lossy(line)),
        None => "(nothing)".to_string(),
    };
    println!("line {}, after", same + 1);
    for line in &want[same.saturating_sub(SHOWN)..same] {
        print!("  {}", String::from_utf8_lossy(line));
    }
    println!("model:   {}", text(want.get(same)));
    println!("program: {}", text(have.get(same)));
}

/// Inputs of fewer bytes than a command, bytes as they come, and a long file of
/// kind noise; the long ones end within a command.
fn bad_inputs() -> Vec<(String, Vec<u8>)> {
    let mut bytes = vec![0; NOISE_COMMANDS * COMMAND_BYTES + 3];
    Random::new(NOISE_SEED).fill(&mut bytes);
    let commands = generate(Kind::Noise, NOISE_SEED, NOISE_COMMANDS);
    let mut inputs: Vec<(String, Vec<u8>)> =
        (0..COMMAND_BYTES).map(|length| (format!("{length} bytes"), bytes[..length].to_vec())).collect();
    inputs.push((format!("{} bytes of noise", bytes.len()), bytes));
    inputs.push((format!("{} bytes of kind noise", commands.len()), commands));
    inputs
}

#[derive(Default)]
struct Totals {
    files: usize,
    commands: usize,
    differences: usize,
}

impl Totals {
    fn compare(&mut self, program: &str, name: &str, input: &[u8]) {
        let expected = listing(input);
        let found = run_program(program, input).unwrap_or_else(|error| {
            eprintln!("{error}");
            exit(2);
        });
        self.files += 1;
        self.commands += input.len().div_ceil(COMMAND_BYTES);
        let same = found.stdout == expected.as_bytes() && found.stderr.is_empty() && found.status.success();
        if !same && self.differences == 0 {
            show(name, &expected, &found);
        }
        self.differences += !same as usize;
    }
}

struct Request {
    program: String,
    kinds: Vec<(&'static str, Kind)>,
    bad_inputs: bool,
    first: u64,
    last: u64,
    commands: usize,
}

/// None when the words are not as the usage says.
fn request(words: &[String]) -> Option<Request> {
    let [program, name, first, files, commands] = words else { return None };
    let bad_inputs = name == "all";
    let kinds: Vec<(&str, Kind)> =
        kinds::KINDS.into_iter().filter(|(known, _)| bad_inputs || known == name).collect();
    let (first, files) = (first.parse::<u64>().ok()?, files.parse::<u64>().ok()?);
    let last = first.checked_add(files.checked_sub(1)?)?;
    let commands = commands.parse().ok()?;
    (!kinds.is_empty()).then(|| Request { program: program.clone(), kinds, bad_inputs, first, last, commands })
}

fn main() {
    let words: Vec<String> = std::env::args().skip(1).collect();
    let Some(request) = request(&words) else {
        eprintln!("usage: compare PROGRAM KIND FIRST_SEED FILES COMMANDS\nkinds: all {}", kinds::names());
        exit(2);
    };
    let mut totals = Totals::default();
    for (name, kind) in &request.kinds {
        for seed in request.first..=request.last {
            let input = generate(*kind, seed, request.commands);
            let name = format!("generate {name} {seed} {}", request.commands);
            totals.compare(&request.program, &name, &input);
        }
    }
    if request.bad_inputs {
        for (name, input) in bad_inputs() {
            totals.compare(&request.program, &name, &input);
        }
    }
    let Totals { files, commands, differences } = totals;
    let noise = if request.bad_inputs { format!(", noise seed {NOISE_SEED}") } else { String::new() };
    let Request { first, last, .. } = request;
    println!("{files} files, {commands} commands, {differences} differences; seeds {first} to {last}{noise}");
    exit(if differences == 0 { 0 } else { 1 });
}
