//! Lists of calls for demand 3, of every kind by turns, with placings by table and returns of cards. They go on through
//! stops, and some begin with an older image.

use crate::calls::{Answer, Call};
use crate::commands::{read_command, COMMAND_BYTES};
use crate::control::count;
use crate::edition::Edition;
use crate::kinds::{Kind, Maker, KINDS};
use crate::plain::{Expected, Plain};
use crate::random::Random;
use crate::returns::returnable;
use crate::sites::members;
use crate::tables::random_table;
use std::ops::RangeInclusive;

const CALLS_IN_A_LIST: usize = 4_000;

/// The maker of refusals tries many calls for each that it takes.
const CALLS_AIMED_AT_REFUSALS: usize = 500;

/// Old placements are retired by then, as a rule.
const CALLS_FROM_AN_OLDER_IMAGE: usize = 200;

/// Lists from older images after each from a zero image: about two of five calls.
const OLDER_LISTS: usize = 14;

/// The editions whose calls leave an older image, one after the other.
pub const HISTORIES: [&[Edition]; 7] = [
    &[Edition::Base],
    &[Edition::Rails],
    &[Edition::BelowWire],
    &[Edition::ByTables],
    &[Edition::Base, Edition::Rails],
    &[Edition::Base, Edition::Rails, Edition::BelowWire],
    &[Edition::Base, Edition::BelowWire, Edition::ByTables],
];

/// Earlier calls that make an older image, so that records are in use.
const EARLIER_CALLS: usize = 200;

/// By each further edition, so few that placements of the one before often stay active.
const FURTHER_EARLIER_CALLS: usize = 20;

/// Earlier calls until as many placements are active as are wished.
const MOST_EARLIER_CALLS: usize = 2_000;

/// Of a thousand steps, so many are a placing by table.
const BY_TABLE: usize = 8;

/// In a list from an older image, which has fewer steps.
const BY_TABLE_AFTER_OLDER: usize = 40;

/// Before the first start and after a stop.
const BY_TABLE_NOT_RUNNING: usize = 60;

/// Of a thousand earlier calls by an edition that has tables.
const BY_TABLE_EARLIER: usize = 60;

/// Of a thousand steps of a running list, so many begin a failure of the supply: several cards fail.
const SUPPLY_FAILS: usize = 3;

/// Of a thousand steps before the first start or of a running list, so many are a return, which is refused.
const RETURNS_ELSE: usize = 4;

/// Of a thousand steps after a stop.
const RETURNS_STOPPED: usize = 550;

/// Of a thousand returns, so many are of a card that the rules take back, where there is one.
const USEFUL_RETURNS: usize = 600;

/// Of a thousand returns, so many find the bytes of the card's failing.
const KEPT_RETURNS: usize = 800;

/// Of a thousand tables, so many have a fault.
const FAULTY_TABLES: usize = 400;

/// What a list asks of the store.
#[derive(Clone, Debug, PartialEq, Eq)]
pub enum Step {
    Command([u8; COMMAND_BYTES]),
    /// The bytes of the lines of a placing by table.
    Table(Vec<u8>),
    /// The card's table has the bytes of its failing, or else those that noise left; then it is to be stale.
    Return { card: u8, kept: bool },
}

/// A maker of calls, and the plain list that they feed.
pub struct List {
    edition: Edition,
    /// The name of the kind.
    pub name: &'static str,
    maker: Maker,
    /// None before an accepted start.
    pub plain: Option<Plain>,
    /// The editions whose calls left the image that the list begins with; none left one of zeros.
    pub history: &'static [Edition],
    /// That image before it was converted.
    pub older: Option<Vec<u8>>,
    pub calls: usize,
    /// The cards that a failure of the supply still takes.
    failing: Vec<usize>,
    /// Numbers of its own, so that the commands between do not depend on the tables.
    random: Random,
}

impl List {
    fn new(edition: Edition, name: &'static str, kind: Kind, seed: u64) -> List {
        let calls = if kind == Kind::Refusals { CALLS_AIMED_AT_REFUSALS } else { CALLS_IN_A_LIST };
        let (maker, random) = (Maker::by(edition, kind, seed), Random::new(!seed));
        let mut list =
            List { edition, name, maker, plain: None, history: &[], older: None, calls, failing: Vec::new(), random };
        if edition == Edition::Today {
            list.maker.wait_for_returns();
        }
        list
    }

    /// Goes on from what calls of earlier editions left after a start, not stopped, most often with this many active.
    /// One in three has many values pending.
    fn older(history: &'static [Edition], name: &'static str, kind: Kind, seed: u64, active: usize) -> List {
        let mut list = List::new(history[0], name, kind, seed);
        list.make_earlier_calls(EARLIER_CALLS, if history.len() == 1 { active..=active } else { 1..=4 });
        for edition in &history[1..] {
            list.go_on_by(*edition);
            list.make_earlier_calls(FURTHER_EARLIER_CALLS, active..=active);
        }
        if seed % 3 == 0 {
            for _ in 0..list.maker.leave_pending() {
                list.make_earlier_call();
            }
        }
        let older = Some(list.image().to_vec());
        list.go_on_by(Edition::Today);
        list.maker.wait_for_returns();
        List { history, older, calls: CALLS_FROM_AN_OLDER_IMAGE, ..list }
    }

    /// So many at least, until the store runs, most often with so many active.
    fn make_earlier_calls(&mut self, least: usize, active: RangeInclusive<usize>) {
        for made in 0.. {
            let ready = |plain: &Plain| active.contains(&plain.active.len()) || made >= MOST_EARLIER_CALLS;
            if made >= least && self.running().is_some_and(ready) {
                break;
            }
            self.make_earlier_call();
        }
    }

    fn running(&self) -> Option<&Plain> {
        self.plain.as_ref().filter(|plain| !plain.stopped)
    }

    fn make_earlier_call(&mut self) {
        if self.edition.has_tables() && self.random.chance(BY_TABLE_EARLIER) {
            let lines = self.table();
            self.expect_table(&lines);
            return;
        }
        let bytes = self.maker.next_command();
        if let Some(call) = read_command(&bytes) {
            self.expect(&call);
        }
    }

    fn go_on_by(&mut self, edition: Edition) {
        self.edition = edition;
        self.maker.go_on_by(edition);
        if let Some(plain) = &mut self.plain {
            plain.go_on_by(edition);
        }
    }

    pub fn from_older(&self) -> bool {
        !self.history.is_empty()
    }

    /// Where the list begins, before its first command.
    pub fn image(&self) -> &[u8] {
        self.maker.image()
    }

    /// The call is behind a stop, and no start has come since.
    pub fn is_behind_a_stop(&self) -> bool {
        self.plain.as_ref().is_some_and(|plain| plain.stops > 0)
    }

    pub fn next_step(&mut self) -> Step {
        let (by_table, by_return) = match (self.running(), self.from_older()) {
            (None, _) if self.plain.is_some() => (BY_TABLE_NOT_RUNNING, RETURNS_STOPPED),
            (None, _) => (BY_TABLE_NOT_RUNNING, RETURNS_ELSE),
            (_, true) => (BY_TABLE_AFTER_OLDER, RETURNS_ELSE),
            (_, false) => (BY_TABLE, RETURNS_ELSE),
        };
        if let Some(call) = self.supply_failure() {
            return Step::Command(self.maker.command_of(&call));
        }
        if self.random.chance(by_return) {
            return self.any_return();
        }
        if self.random.chance(by_table) {
            return Step::Table(self.table());
        }
        Step::Command(self.maker.next_command())
    }

    /// The next card of a failure of the supply that goes on or begins. Other calls come between.
    fn supply_failure(&mut self) -> Option<Call> {
        if let Some(plain) = self.running() {
            let mut cards = members(plain.working);
            if self.failing.is_empty() && self.random.chance(SUPPLY_FAILS) {
                self.random.shuffle(&mut cards);
                cards.truncate(2 + self.random.below(cards.len() - 1));
                self.failing = cards;
            }
        }
        if self.failing.is_empty() || self.random.chance(200) {
            return None;
        }
        self.failing.pop().map(|card| Call::Fail { card: card as u8 })
    }

    /// A table over the working cards, which the store kept beside places by.
    fn table(&mut self) -> Vec<u8> {
        let working = self.plain.as_ref().map_or(0xFF, |plain| plain.working);
        let lines = random_table(&mut self.random, working, FAULTY_TABLES);
        self.maker.place_by_table(&lines);
        lines
    }

    fn any_return(&mut self) -> Step {
        let useful = self.maker.stopped().map_or(Vec::new(), |control| returnable(self.image(), &control));
        let useful = self.random.any_of(&useful).filter(|_| self.random.chance(USEFUL_RETURNS));
        let card = useful.unwrap_or_else(|| self.random.below(9)) as u8;
        Step::Return { card, kept: self.random.chance(KEPT_RETURNS) }
    }

    /// What demand 3 says of the answer to a placing by table. None before an accepted start.
    pub fn expect_table(&mut self, lines: &[u8]) -> Option<Answer> {
        self.plain.as_mut().map(|plain| plain.place_by_table(lines))
    }

    /// What demand 3 says of the answer to a return; one of a stale table is no step. None before an accepted start.
    pub fn expect_return(&mut self, card: u8, kept: bool) -> Option<Answer> {
        if kept {
            self.maker.return_card(card);
        }
        let plain = self.plain.as_mut()?;
        Some(if kept { plain.return_card(card) } else { plain.refused_return(card) })
    }

    /// What demand 3 says of the answer to the call. None before an accepted start.
    pub fn expect(&mut self, call: &Call) -> Option<Expected> {
        if let Some(plain) = &mut self.plain {
            return Some(plain.step(call));
        }
        if let Call::Start { mask } = *call {
            self.plain = (count(mask) >= 2).then(|| Plain::start(self.edition, mask));
        }
        None
    }
}

/// The lists of a seed, without end.
pub struct Lists {
    random: Random,
    made: usize,
}

impl Lists {
    pub fn new(seed: u64) -> Lists {
        Lists { random: Random::new(seed), made: 0 }
    }
}

impl Iterator for Lists {
    type Item = List;

    fn next(&mut self) -> Option<List> {
        let (turn, part) = (self.made / (1 + OLDER_LISTS), self.made % (1 + OLDER_LISTS));
        self.made += 1;
        let (name, kind) = KINDS[turn % KINDS.len()];
        let seed = self.random.below(1 << 48) as u64;
        if part == 0 {
            return Some(List::new(Edition::Today, name, kind, seed));
        }
        let history = HISTORIES[part % HISTORIES.len()];
        let active = 1 + self.random.below(4);
        Some(List::older(history, name, kind, seed, active))
    }
}
