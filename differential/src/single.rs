//! Single calls on images of any length and contents.

use crate::broken_wire;
use crate::cases::{Entries, COMMAND_ENTRY, ENTRIES};
use crate::pair::{Pair, Request, ALIGNMENTS};
use crate::protection::{self, SINGLE};
use crate::requests::{command_class, command_classes, random_command, Requests, RECORD_ENDS, VALUE_ENDS};
use crate::returns;
use crate::run::Run;
use crate::tables;
use model::clauses::{broken, broken_control, Clause, CLAUSES};
use model::control::{count, form_of, put_form, Control, HIGHEST_SERIAL};
use model::edition::SERIALS_END;
use model::image::{CONTROL, KEPT, LENGTH, OLDER_LENGTH, OLDEST_LENGTH};
use model::images::{random_tables, whole_control};
use model::random::Random;
use model::sites::Placement;
use model::table_situations::has_all_kinds;
use model::tables::random_table;
use model::{Answer, Call};

const CALLS_ON_AN_IMAGE: usize = 64;

const LENGTHS: [usize; 9] = [0, 1, 31, 32, OLDEST_LENGTH, OLDER_LENGTH, LENGTH - 1, LENGTH + 1, 2 * LENGTH];

/// Of a thousand requests on an image, so many are placings by table.
const BY_TABLE: usize = 80;

/// Of a thousand requests on an image, so many are returns; on one of a stopped store.
const BY_RETURN: usize = 60;
const BY_RETURN_STOPPED: usize = 400;

/// Of a thousand tables, so many have a fault.
const FAULTY_TABLES: usize = 600;

/// How an image is made.
#[derive(Clone, Copy)]
enum Making {
    Whole { number: usize, stopped: bool },
    Broken(Clause),
    Length(usize),
    AnyLength,
    AllRandom,
    /// Any bytes behind the tables of a good image.
    KeptRandom,
    /// A few bits behind the tables of a good image are other ones.
    KeptChanged,
}

const RUNNING_WITH_FAILED: &str = "running, a placement with a failed card";
const RUNNING_WITH_OPEN: &str = "running, open transactions";
const RUNNING_OLD: &str = "running, all active by the old choice";
const RUNNING_RAILS: &str = "running, all active by rails";
const RUNNING_TABLES: &str = "running, all active by table";
const RUNNING_TWO_KINDS: &str = "running, active of two kinds";
const RUNNING_ALL_KINDS: &str = "running, active of all three kinds";
const FOUR_OF_ALL_KINDS: &str = "running, four active of all three kinds";
const STOPPED_TABLE: &str = "stopped, a table active";
const LAST_SERIAL: &str = "running, at the last serial that takes a place";
const NO_SERIAL: &str = "running, no serial for a place";
const HIGHEST: &str = "running, at the highest serial";
const STOPPED_NO_SERIAL: &str = "stopped, no serial for a place";
const KEPT_RANDOM: &str = "any bytes behind the tables";
const KEPT_BROKEN: &str = "bits changed behind the tables, form broken";
const KEPT_WHOLE: &str = "bits changed behind the tables, form whole";
const ANOTHER_LENGTH: &str = "another length";
const ALL_RANDOM: &str = "all contents random";
const MALFORMED_BEFORE_1: &str = "malformed command on a wrong length";
const MALFORMED_BEFORE_2: &str = "malformed command on a broken form";

/// Every way but running stores.
fn makings() -> Vec<Making> {
    let mut all: Vec<Making> = (1..=4).map(|number| Making::Whole { number, stopped: true }).collect();
    all.extend(CLAUSES.map(Making::Broken));
    all.extend(LENGTHS.map(Making::Length));
    all.extend([Making::AnyLength, Making::AllRandom, Making::KeptRandom, Making::KeptChanged]);
    all
}

fn active_name(number: usize, stopped: bool) -> String {
    format!("{}, {number} active", if stopped { "stopped" } else { "running" })
}

/// Classes of images that a run must meet, each with every call and with a command's bytes.
pub fn image_classes() -> Vec<String> {
    let mut all: Vec<String> = (1..=4).flat_map(|n| [active_name(n, false), active_name(n, true)]).collect();
    all.extend([RUNNING_WITH_FAILED, RUNNING_WITH_OPEN, ANOTHER_LENGTH, ALL_RANDOM].map(String::from));
    all.extend([RUNNING_OLD, RUNNING_RAILS, RUNNING_TABLES, RUNNING_TWO_KINDS, RUNNING_ALL_KINDS].map(String::from));
    all.extend([FOUR_OF_ALL_KINDS, STOPPED_TABLE, KEPT_RANDOM, KEPT_BROKEN, KEPT_WHOLE].map(String::from));
    all.extend([LAST_SERIAL, NO_SERIAL, HIGHEST, STOPPED_NO_SERIAL].map(String::from));
    all.extend(CLAUSES.map(|clause| format!("{clause:?} broken alone")));
    all.extend(LENGTHS.map(|length| format!("length {length}")));
    all
}

/// Classes of arguments that a run must meet.
pub fn argument_classes() -> Vec<String> {
    let mut all = command_classes();
    all.extend(RECORD_ENDS.iter().chain(&VALUE_ENDS).map(|(_, name)| name.to_string()));
    all.extend([MALFORMED_BEFORE_1, MALFORMED_BEFORE_2].map(String::from));
    all
}

fn kind_name(control: &Control) -> &'static str {
    let all = |kind: fn(&Placement) -> bool| control.placements.iter().all(kind);
    match control.placements.len() {
        _ if all(Placement::is_chained) => RUNNING_OLD,
        _ if all(Placement::is_by_rails) => RUNNING_RAILS,
        _ if all(Placement::is_by_table) => RUNNING_TABLES,
        _ if has_all_kinds(control) => RUNNING_ALL_KINDS,
        _ => RUNNING_TWO_KINDS,
    }
}

/// The classes of an image, told from its bytes where they can be.
fn classes(image: &[u8], making: Making) -> Vec<String> {
    if image.len() != LENGTH {
        let named = LENGTHS.contains(&image.len());
        return vec![if named { format!("length {}", image.len()) } else { ANOTHER_LENGTH.into() }];
    }
    let mut found = Vec::new();
    match making {
        Making::AllRandom => found.push(ALL_RANDOM.into()),
        Making::KeptRandom => found.push(KEPT_RANDOM.into()),
        Making::KeptChanged if Control::read(image).is_none() => found.push(KEPT_BROKEN.into()),
        Making::KeptChanged => found.push(KEPT_WHOLE.into()),
        _ => {}
    }
    if let [clause] = broken(&form_of(image))[..] {
        found.push(format!("{clause:?} broken alone"));
    }
    let Some(control) = Control::read(image) else { return found };
    found.push(active_name(control.placements.len(), control.stopped));
    if !control.stopped {
        found.push(kind_name(&control).into());
        if control.placements.len() == 4 && has_all_kinds(&control) {
            found.push(FOUR_OF_ALL_KINDS.into());
        }
        if control.placements.iter().any(|placement| placement.mask & control.failed != 0) {
            found.push(RUNNING_WITH_FAILED.into());
        }
    }
    if control.stopped && control.placements.iter().any(Placement::is_by_table) {
        found.push(STOPPED_TABLE.into());
    }
    if !control.open().is_empty() {
        found.push(RUNNING_WITH_OPEN.into());
    }
    found.extend(serial_classes(&control).into_iter().map(String::from));
    found
}

/// Where the serial stands to its bounds.
fn serial_classes(control: &Control) -> Vec<&'static str> {
    let highest = control.serial + count(control.newest().mask) as u32 == HIGHEST_SERIAL;
    let names = [
        (LAST_SERIAL, !control.stopped && control.serial == SERIALS_END - 1),
        (NO_SERIAL, !control.stopped && control.serial >= SERIALS_END),
        (HIGHEST, !control.stopped && highest),
        (STOPPED_NO_SERIAL, control.stopped && control.serial >= SERIALS_END),
    ];
    names.into_iter().filter(|(_, holds)| *holds).map(|(name, _)| name).collect()
}

fn make(random: &mut Random, making: Making) -> Vec<u8> {
    let number = 1 + random.below(4);
    let control = match making {
        Making::Whole { number, stopped } => whole_control(random, number, stopped),
        Making::Broken(clause) => broken_control(random, clause),
        _ => whole_control(random, number, false),
    };
    let mut image = vec![0; LENGTH];
    put_form(&mut image, &control);
    random_tables(random, &mut image);
    match making {
        Making::Length(length) => image.resize(length, 0xFF),
        Making::AnyLength => image.resize(random.below(3 * LENGTH), 0xFF),
        Making::AllRandom => random.fill(&mut image),
        Making::KeptRandom => random.fill(&mut image[KEPT]),
        Making::KeptChanged => change_kept(random, &mut image),
        Making::Whole { .. } | Making::Broken(_) => {}
    }
    image
}

/// One bit or two, most often where a table is kept.
fn change_kept(random: &mut Random, image: &mut [u8]) {
    let kept: Vec<usize> = KEPT.filter(|at| image[*at] != 0).collect();
    for _ in 0..1 + random.below(2) {
        let any = KEPT.start + random.below(KEPT.len());
        let at = if random.chance(900) { random.any_of(&kept).unwrap_or(any) } else { any };
        image[at] ^= 1 << random.below(8);
    }
}

/// Calls on one image, which takes its first contents again after each that changed it.
fn calls_on(run: &mut Run, pair: &mut Pair, requests: &mut Requests, image: &[u8], calls: usize) -> Entries {
    let mut entries = [0; ENTRIES];
    let alignment = run.random.below(ALIGNMENTS);
    pair.load(image, alignment);
    let is_stopped = image.first().is_some_and(|byte| byte & 0x80 != 0);
    let by_return = if is_stopped { BY_RETURN_STOPPED } else { BY_RETURN };
    for _ in 0..calls {
        let entry = if run.random.chance(by_return) {
            return_on(run, pair, requests, image)
        } else if run.random.chance(125) {
            command_on(run, pair, image)
        } else if run.random.chance(BY_TABLE) {
            table_on(run, pair, image)
        } else {
            call_on(run, pair, requests, image)
        };
        entries[entry] += 1;
        if pair.image() != image {
            pair.load(image, alignment);
        }
    }
    entries
}

fn return_on(run: &mut Run, pair: &mut Pair, requests: &mut Requests, image: &[u8]) -> usize {
    let card = requests.returned(&mut run.random);
    let request = Request::Return(card);
    let outcome = run.perform(pair, &request);
    returns::count(run, returns::SINGLE, image, card, &outcome.answer);
    request.operation()
}

fn command_on(run: &mut Run, pair: &mut Pair, image: &[u8]) -> usize {
    let bytes = random_command(&mut run.random);
    let outcome = run.perform(pair, &Request::Command(&bytes));
    count_command(run, image, &bytes, outcome.answer);
    COMMAND_ENTRY
}

fn table_on(run: &mut Run, pair: &mut Pair, image: &[u8]) -> usize {
    let working = image.get(5).copied().unwrap_or(0xFF);
    let lines = random_table(&mut run.random, working, FAULTY_TABLES);
    let request = Request::Table(&lines);
    let outcome = run.perform(pair, &request);
    tables::count(run, tables::SINGLE, image, &lines, &outcome.answer);
    returns::count_table(run, returns::SINGLE, image, &outcome.answer);
    request.operation()
}

fn call_on(run: &mut Run, pair: &mut Pair, requests: &mut Requests, image: &[u8]) -> usize {
    let call = requests.call(&mut run.random);
    let request = Request::Call(call);
    let outcome = run.perform(pair, &request);
    count_ends(run, &call);
    count_state(run, image, &call, outcome.answer);
    broken_wire::count_image(run, image, &call);
    broken_wire::count(run, broken_wire::SINGLE, image, &call, &outcome.answer);
    returns::count_call(run, returns::SINGLE, image, &call, &outcome.answer);
    request.operation()
}

fn count_command(run: &mut Run, image: &[u8], bytes: &[u8], answer: Answer) {
    run.cases.add(&command_class(bytes));
    if answer == Answer::Refused(15) {
        if image.len() != LENGTH {
            run.cases.add(MALFORMED_BEFORE_1);
        } else if Control::read(image).is_none() {
            run.cases.add(MALFORMED_BEFORE_2);
        }
    }
}

fn count_ends(run: &mut Run, call: &Call) {
    if let Call::Get { record, .. } | Call::Store { record, .. } | Call::Delete { record, .. } = *call {
        count_end(run, &RECORD_ENDS, record);
    }
    if let Call::Store { value, .. } = *call {
        count_end(run, &VALUE_ENDS, value);
    }
}

fn count_end(run: &mut Run, ends: &[(u16, &str)], number: u16) {
    for (_, name) in ends.iter().filter(|(end, _)| *end == number) {
        run.cases.add(name);
    }
}

fn count_state(run: &mut Run, image: &[u8], call: &Call, answer: Answer) {
    if let (Call::State, Answer::Protected | Answer::Unprotected) = (call, answer) {
        let control = Control::read(image).expect("an accepted state finds the form whole");
        protection::count(run, SINGLE, &control, call, &answer);
    }
}

/// How the image of a round is made; three of eight are of running stores, and one of a stopped one.
fn making_of(round: usize) -> Making {
    let makings = makings();
    let (number, stopped) = (1 + round / 8 % 4, round % 8 == 4);
    if round % 2 == 0 { Making::Whole { number, stopped } } else { makings[round / 2 % makings.len()] }
}

/// The image of a round.
pub fn any_image(random: &mut Random, round: usize) -> Vec<u8> {
    make(random, making_of(round))
}

/// This many calls.
pub fn run(run: &mut Run, calls: usize) {
    let mut pair = Pair::default();
    let mut requests = Requests::default();
    let end = run.calls + calls;
    for round in 0.. {
        let left = end - run.calls;
        if left == 0 {
            break;
        }
        let making = making_of(round);
        let image = make(&mut run.random, making);
        let entries = calls_on(run, &mut pair, &mut requests, &image, CALLS_ON_AN_IMAGE.min(left));
        run.cases.add_image(&classes(&image, making), &entries);
        check_clauses(run, &image);
    }
}

/// The form as read by the model is that of the clauses one by one.
fn check_clauses(run: &mut Run, image: &[u8]) {
    if image.len() == LENGTH && broken(&form_of(image)).is_empty() != Control::read(image).is_some() {
        let what = format!("the clauses of {:02X?} are not the model's form", &image[..CONTROL]);
        run.report(&Request::Call(Call::State), &what);
    }
}
