//! Questions that are no calls, and commands by their fields: the archive's answers beside the model's.

use crate::archive;
use crate::run::Run;
use model::commands::{Fields, COMMAND_BYTES};
use model::control::Control;
use model::image::LENGTH;
use model::queries::{ask, Query, Told};
use model::random::Random;
use model::sites::Placement;

/// Of a thousand requests, so many are followed by a question on the image that they left.
const ASKED: usize = 250;

/// Of a thousand requests, so many are followed by a command that is written from fields and read.
const WRITTEN: usize = 60;

const NAMES: [&str; 9] =
    ["stopped", "placement count", "placement", "working", "failed", "home", "free transaction", "source", "holders"];

/// What a run must be told by each question: those of the control part are not refused with 4 and are asked of stopped
/// stores too.
const TOLD: [&[&str]; 9] = [
    &["0", "number", "refused 1", "refused 2"],
    &["number", "refused 1", "refused 2"],
    &["number", "none", "refused 1", "refused 2", "refused 3"],
    &["0", "number", "refused 1", "refused 2"],
    &["0", "number", "refused 1", "refused 2"],
    &["0", "number", "none", "refused 1", "refused 2", "refused 3"],
    &["0", "number", "refused 1", "refused 2"],
    &["0", "number", "none", "refused 1", "refused 2", "refused 3", "refused 4", "refused 5", "refused 7"],
    &["0", "number", "refused 1", "refused 2", "refused 3", "refused 4", "refused 5", "refused 7"],
];

/// What is told on an image with a table.
const WITH_TABLE: &str = "anything, a table is active";

const WRITING: [&str; 4] = ["fields written", "fields refused", "fields read", "bytes refused"];

/// Classes that a run must meet.
pub fn classes() -> Vec<String> {
    let told = NAMES.iter().zip(TOLD).flat_map(|(name, all)| all.iter().map(move |told| class(name, told)));
    let with_table = NAMES.iter().map(|name| class(name, WITH_TABLE));
    told.chain(with_table).chain(WRITING.map(String::from)).collect()
}

fn class(name: &str, told: &str) -> String {
    format!("{name} told: {told}")
}

fn told_name(told: Told) -> String {
    match told {
        Told::Number(0) => "0".into(),
        Told::Number(_) => "number".into(),
        _ => told.to_string(),
    }
}

/// Mostly a number in its range.
fn number(random: &mut Random, range: usize) -> u8 {
    if random.chance(100) {
        random.byte()
    } else {
        random.below(range) as u8
    }
}

/// Any number of 16 bits with this chance, else one in its range.
fn wide(random: &mut Random, chance: usize, range: usize) -> u16 {
    let range = if random.chance(chance) { 0x1_0000 } else { range };
    random.below(range) as u16
}

fn random_query(random: &mut Random) -> (usize, Query) {
    let which = random.below(NAMES.len());
    let transaction = number(random, 16);
    let record = wide(random, 50, 512);
    let query = match which {
        0 => Query::Stopped,
        1 => Query::PlacementCount,
        2 => Query::Placement(number(random, 4)),
        3 => Query::Working,
        4 => Query::Failed,
        5 => Query::Home(transaction),
        6 => Query::FreeTransaction,
        7 => Query::Source { transaction, record },
        _ => Query::Holders { transaction, record },
    };
    (which, query)
}

fn has_table(image: &[u8]) -> bool {
    let control = (image.len() == LENGTH).then(|| Control::read(image)).flatten();
    control.is_some_and(|control| control.placements.iter().any(Placement::is_by_table))
}

/// A question on the image that a request left.
fn check_told(run: &mut Run, image: &[u8]) {
    let (which, query) = random_query(&mut run.random);
    let (code, told) = (archive::ask(image, query), ask(image, query));
    run.questions += 1;
    run.cases.add(&class(NAMES[which], &told_name(told)));
    if !matches!(told, Told::Refused(_)) && has_table(image) {
        run.cases.add(&class(NAMES[which], WITH_TABLE));
    }
    if code != archive::told_code(told) {
        run.report(&query, &format!("the archive tells {code:#X}, the model {told}"));
    }
}

/// Random fields, most of them of a call and of their widths.
fn random_fields(random: &mut Random) -> Fields {
    let mut fields = Fields {
        operation: number(random, 16),
        transaction: number(random, 16),
        card: number(random, 16),
        number: wide(random, 100, 4096),
        value: random.below(0x1_0000) as u16,
    };
    if random.chance(700) {
        fields = fields.named();
    }
    fields
}

/// Fields are written as bytes, and bytes read as fields, on lent memory of any contents and most often of five bytes.
fn check_command(run: &mut Run) {
    let fields = random_fields(&mut run.random);
    let length = if run.random.chance(100) { run.random.below(9) } else { COMMAND_BYTES };
    let mut bytes = vec![0; length];
    run.random.fill(&mut bytes);
    let packed = fields.pack().filter(|_| fields.operation < 15 && fields.named() == fields && length == COMMAND_BYTES);
    let wanted = packed.map_or(bytes.clone(), Vec::from);
    let code = archive::write_command(&mut bytes, fields);
    if (code == 0) != packed.is_some() || bytes != wanted {
        run.report(&fields, &format!("the archive answers {code:#X} and leaves {bytes:02X?}"));
    }
    run.cases.add(WRITING[usize::from(packed.is_none())]);
    check_read(run, &bytes, fields);
}

/// Reading leaves the lent fields where the bytes are malformed.
fn check_read(run: &mut Run, bytes: &[u8], lent: Fields) {
    let shown = <&[u8; COMMAND_BYTES]>::try_from(bytes).ok().map(Fields::unpack);
    let shown = shown.filter(|fields| fields.operation < 15 && fields.named() == *fields);
    let mut found = lent;
    let code = archive::read_command(bytes, &mut found);
    if (code == 0) != shown.is_some() || found != shown.unwrap_or(lent) {
        run.report(&bytes, &format!("the archive answers {code:#X} and reads {found:?}"));
    }
    run.cases.add(WRITING[2 + usize::from(shown.is_none())]);
}

/// Now and then, after a request.
pub fn check(run: &mut Run, image: &[u8]) {
    if run.random.chance(ASKED) {
        check_told(run, image);
    }
    if run.random.chance(WRITTEN) {
        check_command(run);
    }
}
