//! The images on which calls are timed, and the calls.

use crate::sides::{Asked, Side};
use model::calls::{perform, started, Call};
use model::control::Control;
use model::converter::shortened;
use model::image::{BLOCKS, CARDS, LENGTH, OLDER_LENGTH, OLDEST_LENGTH, RECORDS};
use model::move_list::fewest_moves;
use model::sites::{members, sites};
use model::table::{place_by_table, write_lines, Line};
use model::Answer;

/// Calls that run one after another on a copy of the image.
pub struct Case {
    pub state: &'static str,
    pub call: &'static str,
    pub image: Vec<u8>,
    /// The same store without a table, for a side that has none.
    without_table: Option<Vec<u8>>,
    pub calls: Vec<Asked>,
    /// The figures are those of the whole list, and not of one call.
    whole: bool,
    /// An earlier delivery answers otherwise.
    today: bool,
}

impl Case {
    fn new(state: &'static str, call: &'static str, image: &[u8], calls: Vec<Call>) -> Case {
        Case::of(state, call, image, calls.into_iter().map(Asked::Call).collect())
    }

    fn of(state: &'static str, call: &'static str, image: &[u8], calls: Vec<Asked>) -> Case {
        Case { state, call, image: image.to_vec(), without_table: None, calls, whole: false, today: false }
    }

    fn whole(state: &'static str, call: &'static str, image: &[u8], calls: Vec<Call>) -> Case {
        Case { whole: true, ..Case::new(state, call, image, calls) }
    }

    fn today(state: &'static str, call: &'static str, image: &[u8], calls: Vec<Asked>) -> Case {
        Case { today: true, ..Case::of(state, call, image, calls) }
    }

    fn move_list(state: &'static str, call: &'static str, image: &[u8]) -> Case {
        Case::of(state, call, image, vec![Asked::MoveList; 4])
    }

    /// The image on which a side runs. An older side has its own length, and perhaps no tables; None where it lacks the
    /// call or answers otherwise.
    pub fn image_of(&self, side: Side) -> Option<Vec<u8>> {
        let length = side.length();
        if length == LENGTH {
            // Of an earlier archive the return and the converters are not linked, since not every one has them.
            let linked = side.older_length.is_none() || self.calls.iter().all(|asked| asked.is_old(true));
            return linked.then(|| self.image.clone());
        }
        let tables = length == OLDER_LENGTH;
        if self.today || !self.calls.iter().all(|asked| asked.is_old(tables)) {
            return None;
        }
        let image = self.without_table.as_ref().filter(|_| !tables).unwrap_or(&self.image);
        Some(shortened(image, length))
    }

    /// What the figures of a copy are divided by.
    pub fn shares(&self) -> usize {
        if self.whole {
            1
        } else {
            self.calls.len()
        }
    }

    /// The order of the table's rows: by state, single calls first, as the calls are numbered.
    fn place(&self) -> (usize, bool, u8) {
        let state = STATES.iter().position(|state| *state == self.state).expect("one of the states");
        (state, self.whole, self.calls[0].place())
    }
}

const FULL: &str = "full";
const ONE_TABLE: &str = "full, one table";
const REORGANISING: &str = "reorganising";
const STOPPED: &str = "stopped";
const OLDER: &str = "full, an older image";

/// In the order of the table's rows.
const STATES: [&str; 5] = [FULL, ONE_TABLE, REORGANISING, STOPPED, OLDER];

/// Records that a transaction stores before it ends.
const PENDING: usize = 8;

const TRANSACTIONS: u8 = 15;

/// The card that fails.
const FAILING: u8 = 2;

/// A further card that fails, which stops the store.
const STOPPING: u8 = 3;

fn accept(image: &mut [u8], call: Call) {
    let answer = perform(image, &call);
    assert!(!matches!(answer, Answer::Refused(_)), "{call:?} {answer}");
}

/// The image after these calls, all accepted.
fn after(image: &[u8], calls: Vec<Call>) -> Vec<u8> {
    let mut image = image.to_vec();
    for call in calls {
        accept(&mut image, call);
    }
    image
}

/// Transaction 1 from its begin to its commit.
fn transaction(home: u8, stores: impl Iterator<Item = Call>) -> Vec<Call> {
    let (begin, commit) = (Call::Begin { transaction: 1, home }, Call::Commit { transaction: 1 });
    [begin].into_iter().chain(stores).chain([commit]).collect()
}

/// Every record stored and committed, one placement.
pub fn filled(mask: u8) -> Vec<u8> {
    let store = |record: u16| Call::Store { transaction: 1, record, value: record.wrapping_mul(0x9E37) };
    after(&started(mask), transaction(members(mask)[0] as u8, (0..RECORDS as u16).map(store)))
}

/// The moves of these blocks that let settle succeed.
fn moves(image: &[u8], blocks: std::ops::Range<usize>) -> Vec<Call> {
    let control = Control::read(image).expect("the form is whole");
    let listed = fewest_moves(image, &control).into_iter().filter(|from| blocks.contains(&from.block.into()));
    listed.map(|from| Call::Move { card: from.card, block: from.block.into() }).collect()
}

/// Three active placements; card 6 works outside them and card 7 does not work. The first blocks are moved.
pub fn reorganising(moved: usize) -> Vec<u8> {
    place_and_move(&after(&filled(0xFC), vec![Call::Fit { card: 6 }]), [0x7C, 0x3C], moved)
}

/// Two more placements; the first blocks are moved to the newest sites.
pub fn place_and_move(image: &[u8], masks: [u8; 2], moved: usize) -> Vec<u8> {
    let placed = after(image, masks.map(|mask| Call::Place { mask }).to_vec());
    let moves = moves(&placed, 0..moved);
    after(&placed, moves)
}

/// All transactions open, with these homes in turn, each with pending records.
fn pending(image: &[u8], homes: &[u8]) -> Vec<u8> {
    let record = |transaction: u8, at: usize| ((transaction as usize - 1) * 4 * PENDING + 4 * at) as u16;
    let store = |transaction, record| Call::Store { transaction, record, value: record };
    let stores = |transaction| (0..PENDING).map(move |at| store(transaction, record(transaction, at)));
    after(&after(image, begins(homes)), (1..=TRANSACTIONS).flat_map(stores).collect())
}

/// The cards at which transactions begin: those of the newest placement.
fn homes(image: &[u8]) -> Vec<u8> {
    let newest = Control::read(image).expect("the form is whole").newest();
    members(newest.mask).into_iter().map(|card| card as u8).collect()
}

fn begins(homes: &[u8]) -> Vec<Call> {
    transactions(|transaction| Call::Begin { transaction, home: homes[transaction as usize % homes.len()] })
}

/// A call for every record, by all transactions in turn.
fn records(call: impl Fn(u8, u16) -> Call) -> Vec<Call> {
    (0..RECORDS as u16).map(|record| call(1 + (record % TRANSACTIONS as u16) as u8, record)).collect()
}

fn transactions(call: impl Fn(u8) -> Call) -> Vec<Call> {
    (1..=TRANSACTIONS).map(call).collect()
}

/// The values are in the range that store takes.
fn store(transaction: u8, record: u16) -> Call {
    Call::Store { transaction, record, value: 0xFFFE - record }
}

/// The first record of the store, the last, and those between at equal distances: no two of them lie in one block or at
/// one place of their blocks.
fn spread() -> impl Iterator<Item = u16> {
    (0..RECORDS as u16).step_by((RECORDS - 1) / (PENDING - 1))
}

/// The lists that are measured as wholes.
fn lists(state: &'static str, image: &[u8]) -> Vec<Case> {
    let home = homes(image)[0];
    let begun = after(image, vec![Call::Begin { transaction: 1, home }]);
    let stores = spread().map(|record| store(1, record));
    let gets = (0..RECORDS as u16).map(|record| Call::Get { transaction: 1, record }).collect();
    vec![
        Case::whole(state, "transaction of eight stores", image, transaction(home, stores)),
        Case::whole(state, "512 gets", &begun, gets),
    ]
}

/// A line for each block, with its sites by rails: the table changes no block's cards.
fn table_of_rails(image: &[u8]) -> Vec<u8> {
    let newest = Control::read(image).expect("the form is whole").newest();
    let line = |block: usize| {
        Line { first: block as u8, last: block as u8, cards: sites(newest, block).map(|card| card as u8) }
    };
    write_lines(&(0..BLOCKS).map(line).collect::<Vec<Line>>())
}

/// The same store with one placement by table, which has every block where it lies.
fn with_table(image: &[u8]) -> Vec<u8> {
    let mut placed = image.to_vec();
    assert_eq!(place_by_table(&mut placed, &table_of_rails(image)), Answer::Ok);
    after(&placed, vec![Call::Settle])
}

/// Placings by table: a line for each block, and two lines in all.
fn placings(state: &'static str, image: &[u8]) -> Vec<Case> {
    let two_lines = vec![0, 31, 0, 5, 32, 63, 1, 6];
    vec![
        Case::of(state, "place by table", image, vec![Asked::Table(table_of_rails(image)); 2]),
        Case::of(state, "place by table, two lines", image, vec![Asked::Table(two_lines); 2]),
    ]
}

/// The calls that are alike in all states.
fn common(state: &'static str, image: &[u8]) -> Vec<Case> {
    let homes = homes(image);
    let others: Vec<u8> = homes.iter().copied().filter(|home| *home != FAILING).collect();
    let (open, locked) = (after(image, begins(&homes)), pending(image, &homes));
    let case = |call, image: &[u8], calls| Case::new(state, call, image, calls);
    let cards = members(Control::read(image).expect("the form is whole").working);
    vec![
        case("start", image, vec![Call::Start { mask: 0xFF }; 4]),
        case("begin", image, begins(&homes)),
        case("get", &open, records(|transaction, record| Call::Get { transaction, record })),
        case("store", &open, records(store)),
        case("delete", &open, records(|transaction, record| Call::Delete { transaction, record })),
        case("commit", &locked, transactions(|transaction| Call::Commit { transaction })),
        case("rollback", &locked, transactions(|transaction| Call::Rollback { transaction })),
        case("fail", &locked, vec![Call::Fail { card: FAILING }]),
        case("fail, none begun there", &pending(image, &others), vec![Call::Fail { card: FAILING }]),
        case("state", image, vec![Call::State; 64]),
        case("load", image, cards.into_iter().map(|card| Call::Load { card: card as u8 }).collect()),
    ]
}

/// The other calls on the full store.
fn on_full(state: &'static str, full: &[u8]) -> Vec<Case> {
    let case = |call, calls| Case::new(state, call, full, calls);
    let newest = Control::read(full).expect("the form is whole").newest();
    let at_sites = |block: usize| sites(newest, block).map(|card| Call::Move { card: card as u8, block: block as u16 });
    vec![
        case("fit", (0..CARDS as u8).map(|card| Call::Fit { card }).collect()),
        case("withdraw", (0..CARDS as u8).map(|card| Call::Withdraw { card }).collect()),
        case("place", vec![Call::Place { mask: 0xFE }, Call::Place { mask: 0x7E }]),
        case("move", (0..BLOCKS).flat_map(at_sites).collect()),
        case("settle", vec![Call::Settle; 4]),
        Case::move_list(state, "move list", full),
    ]
}

/// The other calls in the middle of the reorganisation.
fn on_half(half: &[u8]) -> Vec<Case> {
    let case = |call, calls| Case::new(REORGANISING, call, half, calls);
    vec![
        case("fit", vec![Call::Fit { card: 7 }]),
        case("withdraw", vec![Call::Withdraw { card: 6 }]),
        case("place", vec![Call::Place { mask: 0x7E }; 64]),
        case("move", moves(half, BLOCKS / 2..BLOCKS)),
        case("settle", vec![Call::Settle; 4]),
        Case::new(REORGANISING, "settle, all moved", &reorganising(BLOCKS), vec![Call::Settle]),
        Case::move_list(REORGANISING, "move list", half),
    ]
}

/// Two of eight cards failed, with transactions open: the store stopped. The second card can come back.
fn on_stopped(full: &[u8]) -> Vec<Case> {
    let fails = [FAILING, STOPPING].map(|card| Call::Fail { card }).to_vec();
    let stopped = after(&pending(full, &homes(full)), fails);
    let others = (0..CARDS as u8).filter(|card| ![FAILING, STOPPING].contains(card));
    let marks = others.map(|card| Asked::Call(Call::Fail { card })).collect();
    vec![
        Case::today(STOPPED, "return, the store runs", &stopped, vec![Asked::Return(STOPPING)]),
        Case::today(STOPPED, "return, stale", &stopped, vec![Asked::Return(FAILING); 64]),
        Case::today(STOPPED, "fail", &stopped, marks),
    ]
}

/// Conversions of the full store as earlier editions had it.
fn conversions(full: &[u8]) -> Vec<Case> {
    let case = |call, length, asked| Case::of(OLDER, call, &shortened(full, length), vec![asked; 4]);
    vec![
        case("convert 21,024", OLDEST_LENGTH, Asked::Convert21024),
        case("convert 21,216", OLDER_LENGTH, Asked::Convert21216),
    ]
}

/// All cases of a state.
fn of_state(state: &'static str, image: &[u8], own: fn(&'static str, &[u8]) -> Vec<Case>) -> Vec<Case> {
    let mut all = common(state, image);
    all.extend(own(state, image));
    all.extend(lists(state, image));
    all
}

pub fn cases() -> Vec<Case> {
    let full = filled(0xFF);
    let half = reorganising(BLOCKS / 2);
    let mut all = of_state(FULL, &full, on_full);
    all.extend(placings(FULL, &full));
    // Beside each case with the table stands the one of the same store without it.
    let without_table = of_state(ONE_TABLE, &full, on_full);
    let with_table = with_table(&full);
    for (case, without) in of_state(ONE_TABLE, &with_table, on_full).into_iter().zip(without_table) {
        all.push(Case { without_table: Some(without.image), ..case });
    }
    all.extend(placings(ONE_TABLE, &with_table));
    all.extend(of_state(REORGANISING, &half, |_, half| on_half(half)));
    all.extend(on_stopped(&full));
    all.extend(conversions(&full));
    let eight = place_and_move(&full, [0x7E, 0x3C], BLOCKS / 4);
    all.push(Case::move_list(REORGANISING, "move list, eight cards", &eight));
    all.sort_by_key(Case::place);
    all
}
