//! Conversions of older images by both converters: the answer, every byte of the lent image and around it, and that the
//! older one stays.

use crate::archive;
use crate::lent::Lent;
use crate::run::Run;
use model::clauses::{broken_control, Clause, CLAUSES};
use model::control::{put_form, Control, Form, FORM, SERIAL};
use model::converter::{convert_21024, convert_21216};
use model::edition::Edition;
use model::image::{LENGTH, OLDER_LENGTH, OLDEST_LENGTH};
use model::images::{random_tables, whole_control};
use model::random::Random;
use model::sites::Placement;
use model::Answer;
use std::fmt;

/// A converter by the archive and by the model.
struct Converter {
    /// The edition whose form it asks for.
    edition: Edition,
    /// The length that it fills.
    length: usize,
    archive: fn(&[u8], &mut [u8]) -> u32,
    model: fn(&[u8], &mut [u8]) -> Answer,
}

const CONVERTERS: [Converter; 2] = [
    Converter {
        edition: Edition::BelowWire,
        length: OLDER_LENGTH,
        archive: archive::convert_21024,
        model: convert_21024,
    },
    Converter { edition: Edition::ByTables, length: LENGTH, archive: archive::convert_21216, model: convert_21216 },
];

/// How an older image is made.
#[derive(Clone, Copy, Debug)]
enum Making {
    Whole { number: usize, stopped: bool },
    /// By the form of its edition.
    Broken(Clause),
    /// The control part has a table's mark, which the oldest form does not have.
    WithTable,
    /// The control part has a serial, which no older form has.
    WithSerial,
    Zero,
    AllRandom,
}

/// Lengths of which one is an older image's.
const OLDER_LENGTHS: [usize; 8] =
    [0, 1, 32, OLDEST_LENGTH - 1, OLDEST_LENGTH, OLDER_LENGTH, OLDER_LENGTH + 1, LENGTH];

/// Lengths of which one is a lent image's.
const LENGTHS: [usize; 8] =
    [0, 1, OLDEST_LENGTH, OLDER_LENGTH, OLDER_LENGTH + 1, LENGTH - 1, LENGTH, 2 * LENGTH];

const OLDER_SHORT: &str = "refused 1, the older length";
const LENT_SHORT: &str = "refused 1, the lent length";
const BOTH_SHORT: &str = "refused 1, both lengths";
const SHORT_AND_BROKEN: &str = "refused 1, a broken form too";
const TABLE_REFUSED: &str = "refused 2, a table's mark";
const TABLE_WRITTEN: &str = "written, a table";
const SERIAL_REFUSED: &str = "refused 2, a serial";
const ZERO: &str = "refused 2, zeros";
const LEFT: &str = "conversion of an image that earlier calls left";

impl Converter {
    fn older_length(&self) -> usize {
        self.edition.length()
    }

    fn name(&self, situation: &str) -> String {
        format!("conversion of {} bytes {situation}", self.older_length())
    }

    /// The clauses that the older form has too. That of the last bytes has more of them there.
    fn clauses(&self) -> Vec<Clause> {
        use Clause::*;
        let later = [SerialBelowCount, SerialTooHigh];
        let of_tables =
            [TableMarkBeyondCount, BothMarks, PairOfEqualCards, PairNotOfMembers, KeptWithoutTable, KeptBeyondCount];
        let has = |clause: &Clause| self.edition.has_tables() || !of_tables.contains(clause);
        CLAUSES.into_iter().filter(|clause| !later.contains(clause)).filter(has).collect()
    }

    fn makings(&self) -> Vec<Making> {
        let mut all: Vec<Making> =
            (1..=4).flat_map(|number| [false, true].map(|stopped| Making::Whole { number, stopped })).collect();
        all.extend(self.clauses().into_iter().map(Making::Broken));
        all.extend([Making::WithTable, Making::WithSerial, Making::Zero, Making::AllRandom]);
        all
    }

    fn classes(&self) -> Vec<String> {
        let table = if self.edition.has_tables() { TABLE_WRITTEN } else { TABLE_REFUSED };
        let named = [OLDER_SHORT, LENT_SHORT, BOTH_SHORT, SHORT_AND_BROKEN, SERIAL_REFUSED, ZERO, table];
        let mut all: Vec<String> = named.map(|situation| self.name(situation)).to_vec();
        for stopped in [false, true] {
            all.extend((1..=4).map(|active| self.name(&written_name(stopped, active))));
        }
        all.extend(self.clauses().into_iter().map(|clause| self.name(&broken_name(clause))));
        all
    }

    /// An older image whose control form is this one of today, without its serial.
    fn older_of(&self, random: &mut Random, mut form: Form) -> Vec<u8> {
        form[SERIAL].fill(0);
        let mut older = vec![0; self.older_length()];
        put_form(&mut older, &form);
        random_tables(random, &mut older);
        older
    }

    fn make(&self, random: &mut Random, making: Making) -> Vec<u8> {
        let number = 1 + random.below(4);
        // Either kind of form where the edition has tables.
        let tables = self.edition.has_tables();
        let with_table = tables && random.chance(500);
        let form = match making {
            Making::Whole { number, stopped } => {
                form(random, with_table, |random| whole_control(random, number, stopped))
            }
            Making::Broken(clause) if tables => broken_control(random, clause),
            Making::Broken(clause) => form(random, false, |random| broken_control(random, clause)),
            Making::WithTable => form(random, true, |random| whole_control(random, number, false)),
            Making::WithSerial => form(random, with_table, |random| whole_control(random, number, false)),
            Making::Zero | Making::AllRandom => [0; FORM],
        };
        let mut older = self.older_of(random, form);
        match making {
            Making::Zero => older.fill(0),
            Making::AllRandom => random.fill(&mut older),
            Making::WithSerial => older[SERIAL.start + random.below(SERIAL.len())] = 1 << random.below(8),
            _ => {}
        }
        older
    }

    /// Converts into lent bytes of any contents by the archive and by the model. The model's answer and image.
    fn check(&self, run: &mut Run, random: &mut Random, older: &[u8], length: usize) -> (Answer, Vec<u8>) {
        let lent = Lent::random(random, length);
        let (mut found, mut wanted) = (lent.clone(), lent);
        let archive_older = older.to_vec();
        let code = (self.archive)(&archive_older, found.bytes_mut());
        let answer = (self.model)(older, wanted.bytes_mut());
        run.conversions += 1;
        let asked = Asked { older: older.len(), lent: length, conversion: run.conversions };
        if code != archive::code(answer) {
            run.report(&asked, &format!("the archive answers {code:#X}, the model {answer}"));
        }
        if let Some(byte) = found.different_byte(&wanted) {
            run.report(&asked, &format!("{answer}; of the lent image, {byte}"));
        }
        if archive_older != older {
            run.report(&asked, "the older image changed");
        }
        (answer, wanted.bytes().to_vec())
    }

    fn count(&self, run: &mut Run, making: Making, older: &[u8], length: usize, answer: Answer) {
        let right = older.len() == self.older_length();
        let whole = right.then(|| Control::read_by(self.edition, older)).flatten();
        let mut names = match (answer, making) {
            (Answer::Written(_), _) => of_written(&whole.clone().expect("a whole form is converted")),
            (Answer::Refused(2), Making::Broken(clause)) => vec![broken_name(clause)],
            (Answer::Refused(2), Making::WithTable) => vec![TABLE_REFUSED.into()],
            (Answer::Refused(2), Making::WithSerial) => vec![SERIAL_REFUSED.into()],
            (Answer::Refused(2), Making::Zero) => vec![ZERO.into()],
            (Answer::Refused(1), _) => match (right, length == self.length) {
                (false, true) => vec![OLDER_SHORT.into()],
                (true, false) => vec![LENT_SHORT.into()],
                _ => vec![BOTH_SHORT.into()],
            },
            _ => vec![],
        };
        if answer == Answer::Refused(1) && right && whole.is_none() {
            names.push(SHORT_AND_BROKEN.into());
        }
        for name in names {
            run.cases.add(&self.name(&name));
        }
    }
}

fn written_name(stopped: bool, active: usize) -> String {
    format!("written, {}, {active} active", if stopped { "stopped" } else { "running" })
}

fn broken_name(clause: Clause) -> String {
    format!("refused 2, {clause:?} broken alone")
}

fn of_written(control: &Control) -> Vec<String> {
    let mut names = vec![written_name(control.stopped, control.placements.len())];
    if control.placements.iter().any(Placement::is_by_table) {
        names.push(TABLE_WRITTEN.into());
    }
    names
}

/// Classes that a run must meet.
pub fn classes() -> Vec<String> {
    CONVERTERS.iter().flat_map(Converter::classes).chain([LEFT.to_string()]).collect()
}

/// A form of today in which a table is marked, or none is.
fn form(random: &mut Random, with_table: bool, make: impl Fn(&mut Random) -> Form) -> Form {
    loop {
        let form = make(random);
        if (form[7] & 0x0F != 0) == with_table {
            return form;
        }
    }
}

/// What differences are reported of.
struct Asked {
    older: usize,
    lent: usize,
    conversion: usize,
}

impl fmt::Debug for Asked {
    fn fmt(&self, f: &mut fmt::Formatter) -> fmt::Result {
        write!(f, "conversion {} of {} bytes into {}", self.conversion, self.older, self.lent)
    }
}

/// The image in which a list goes on from what earlier calls left, by one converter or by both.
pub fn check_left(run: &mut Run, random: &mut Random, older: &[u8], wanted: &[u8]) {
    let mut image = older.to_vec();
    for converter in CONVERTERS {
        if image.len() == converter.older_length() {
            (_, image) = converter.check(run, random, &image, converter.length);
        }
    }
    run.cases.add(LEFT);
    if image != wanted {
        run.report(&LEFT, "the list begins with another image");
    }
}

/// This many conversions, by each converter by turns. They have random numbers of their own.
pub fn run(run: &mut Run, conversions: usize) {
    let mut random = Random::new(run.seed ^ 0xC0DE);
    let makings = CONVERTERS.map(|converter| converter.makings());
    for round in 0..conversions {
        let (turn, converter) = (round / CONVERTERS.len(), &CONVERTERS[round % CONVERTERS.len()]);
        let makings = &makings[round % CONVERTERS.len()];
        let making = makings[turn / 4 % makings.len()];
        let mut older = converter.make(&mut random, making);
        let mut length = converter.length;
        if turn % 4 == 1 || turn % 4 == 3 && random.chance(500) {
            older.resize(random.one_of(&OLDER_LENGTHS), 0);
        }
        if turn % 4 >= 2 {
            length = random.one_of(&LENGTHS);
        }
        let (answer, _) = converter.check(run, &mut random, &older, length);
        converter.count(run, making, &older, length, answer);
    }
}
