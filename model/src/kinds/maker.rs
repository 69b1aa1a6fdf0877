//! The maker of a command file: it keeps a store of its own and chooses each
//! command by what that store has.

use super::profiles::{profile, Profile};
use super::{Kind, KINDS};
use crate::calls::{perform_by, Answer, Call};
use crate::commands::{read_command, write_command, COMMAND_BYTES};
use crate::control::Control;
use crate::converter::lengthen;
use crate::edition::{Edition, BROKEN_WIRE};
use crate::image::{held_blocks, CARDS, RECORDS};
use crate::random::Random;
use crate::returns::{can_resume, return_card};
use crate::sites::members;
use crate::table::{place_by_table_by, write_lines};
use crate::tables::good_lines;
use std::collections::VecDeque;

/// Of a thousand starts after a stop, so many are left out where returns can set the store running.
const WAITING: usize = 970;

pub struct Maker {
    /// The rules that the store kept beside follows.
    pub(super) edition: Edition,
    kind: Kind,
    pub(super) profile: Profile,
    pub(super) random: Random,
    pub(super) image: Vec<u8>,
    pub(super) records: Vec<u16>,
    pub(super) plan: VecDeque<Call>,
    /// The plan goes on without other commands between.
    pub(super) steady: bool,
    /// Calls before the first start.
    before: Vec<Call>,
    /// Cards are returned after a stop, so few starts come as long as that can set the store running.
    waits: bool,
}

/// Five bytes of a command; the numbers fit their fields.
pub(super) fn bytes_of(call: &Call) -> [u8; COMMAND_BYTES] {
    let mut bytes = [0; COMMAND_BYTES];
    assert!(write_command(call, &mut bytes), "{call:?} is too wide");
    bytes
}

impl Maker {
    pub fn new(kind: Kind, seed: u64) -> Maker {
        Maker::by(Edition::Today, kind, seed)
    }

    pub fn by(edition: Edition, kind: Kind, seed: u64) -> Maker {
        let at = KINDS.iter().position(|(_, known)| *known == kind).unwrap() as u64;
        let mut random = Random::new(seed.wrapping_mul(64).wrapping_add(at));
        let profile = profile(kind);
        let mut records: Vec<u16> = (0..RECORDS as u16).collect();
        random.shuffle(&mut records);
        if profile.pool > 0 {
            records.truncate(profile.pool);
        }
        if kind == Kind::Edges {
            records.extend([0, 7, 8, 503, 504, 511]);
        }
        let image = vec![0; edition.length()];
        let (plan, before) = (VecDeque::new(), Vec::new());
        let (steady, waits) = (false, false);
        let mut maker = Maker { edition, kind, profile, random, image, records, plan, steady, before, waits };
        if kind == Kind::Refusals {
            maker.before = maker.calls_before_a_start();
        }
        maker
    }

    /// The commands from here on are for a store that follows these rules; what is there stays.
    pub fn go_on_by(&mut self, edition: Edition) {
        // A store that was never started is not converted, and the longer image is zero too.
        self.image = lengthen(&self.image, edition).unwrap_or(vec![0; edition.length()]);
        self.edition = edition;
        if let Some(control) = self.running() {
            self.plan_going_on(&control);
        }
    }

    /// A placing by table, which no command file has, on the store kept beside. Where it is taken, the commands after
    /// it most often use it.
    pub fn place_by_table(&mut self, lines: &[u8]) {
        let answer = place_by_table_by(self.edition, &mut self.image, lines);
        if let (Answer::Ok, Some(control)) = (answer, self.running()) {
            self.plan_going_on(&control);
        }
    }

    /// Places by a table over the working cards of a running store; its lines.
    pub(super) fn place_any_table(&mut self) -> Vec<u8> {
        let working = self.running().map_or(0, |control| control.working);
        let lines = write_lines(&good_lines(&mut self.random, working));
        self.place_by_table(&lines);
        lines
    }

    /// From here on cards are returned after a stop.
    pub fn wait_for_returns(&mut self) {
        self.waits = true;
    }

    /// A return, which no command file has, on the store kept beside.
    pub fn return_card(&mut self, card: u8) {
        return_card(&mut self.image, card);
    }

    /// The control part after a stop.
    pub fn stopped(&self) -> Option<Control> {
        Control::read_by(self.edition, &self.image).filter(|control| control.stopped)
    }

    /// Plans commands that leave values pending, and says how many.
    pub fn leave_pending(&mut self) -> usize {
        let Some(control) = self.running() else { return 0 };
        self.plan_pending(&control);
        self.plan.len()
    }

    /// Plans commands that use the records that are there. Nothing comes between.
    pub(super) fn use_all(&mut self) {
        if let Some(control) = self.running() {
            self.plan.clear();
            self.plan_use_of_all(&control);
            self.steady = true;
        }
    }

    /// The image of the store kept beside.
    pub fn image(&self) -> &[u8] {
        &self.image
    }

    /// Chooses a command and runs it on the store kept beside.
    pub fn next_command(&mut self) -> [u8; COMMAND_BYTES] {
        let bytes = self.choose();
        self.run(bytes)
    }

    /// The bytes of a call, which runs on the store kept beside.
    pub fn command_of(&mut self, call: &Call) -> [u8; COMMAND_BYTES] {
        self.run(bytes_of(call))
    }

    fn run(&mut self, bytes: [u8; COMMAND_BYTES]) -> [u8; COMMAND_BYTES] {
        if let Some(call) = read_command(&bytes) {
            let answer = perform_by(self.edition, &mut self.image, &call);
            if matches!(answer, Answer::Stopped) || matches!(call, Call::Start { .. }) {
                self.plan.clear();
            }
        }
        bytes
    }

    /// One to four bytes.
    pub(super) fn part_of_a_command(&mut self) -> Vec<u8> {
        let mut bytes = vec![0; 1 + self.random.below(COMMAND_BYTES - 1)];
        self.random.fill(&mut bytes);
        bytes
    }

    fn choose(&mut self) -> [u8; COMMAND_BYTES] {
        if let Some(call) = self.before.pop() {
            return bytes_of(&call);
        }
        if self.steady {
            if let Some(call) = self.plan.pop_front() {
                return bytes_of(&call);
            }
            self.steady = false;
        }
        match self.kind {
            Kind::Noise => self.noise(),
            Kind::Flips => self.flipped(),
            Kind::Edges if self.random.chance(350) => self.edge(),
            Kind::Refusals if self.random.chance(500) => self.aimed(),
            _ if self.random.chance(self.profile.malformed) => self.malformed(),
            _ => bytes_of(&self.ordinary()),
        }
    }

    /// None before the first start and after a stop.
    pub(super) fn running(&self) -> Option<Control> {
        Control::read_by(self.edition, &self.image).filter(|control| !control.stopped)
    }

    /// A call by the plan or by the profile's weights.
    pub(super) fn ordinary(&mut self) -> Call {
        let Some(control) = self.running() else { return self.outside() };
        self.refill_plan(&control);
        if let Some(call) = self.planned(&control) {
            return call;
        }
        let operation = self.operation();
        if self.random.chance(self.profile.wild) {
            return self.careless(operation);
        }
        let crowded = operation == 1 && control.open().len() > self.profile.open;
        if crowded && self.random.chance(700) {
            let commit = 5;
            return self.careful(commit, &control);
        }
        self.careful(operation, &control)
    }

    /// A start, or a call that is refused where no store runs.
    fn outside(&mut self) -> Call {
        if let Some(card) = self.card_to_mark() {
            return Call::Fail { card };
        }
        if self.random.chance(150) {
            // Refused for its value rather than for the stop.
            let (transaction, record) = (1 + self.random.below(15) as u8, self.record());
            return Call::Store { transaction, record, value: BROKEN_WIRE };
        }
        if !self.random.chance(self.profile.outside) && !self.goes_on_waiting() {
            return self.start_call();
        }
        let operation = self.random.below(15) as u8;
        match self.careless(operation) {
            Call::Start { .. } => Call::Start { mask: self.random.one_of(&[0, 0x80, 0x01, 0x10]) },
            call => call,
        }
    }

    /// After a stop, where the kind goes on failing cards.
    fn card_to_mark(&mut self) -> Option<u8> {
        let working = members(self.stopped().filter(|_| self.profile.marks > 0)?.working);
        let card = self.random.any_of(&working)?;
        self.random.chance(self.profile.marks).then_some(card as u8)
    }

    /// No start yet: returns can set the store running.
    fn goes_on_waiting(&mut self) -> bool {
        let resumes = |control: Control| can_resume(&self.image, &control);
        self.waits && self.stopped().is_some_and(resumes) && self.random.chance(WAITING)
    }

    fn refill_plan(&mut self, control: &Control) {
        let empty = (0..CARDS).all(|card| held_blocks(&self.image, card).is_empty());
        if empty && self.plan.is_empty() && self.random.chance(600) {
            self.plan_batch(control, true);
        }
        if !self.plan.is_empty() {
            return;
        }
        if self.random.chance(self.profile.reorganise) {
            self.plan_reorganisation(control);
        } else if self.random.chance(self.profile.batch) {
            let writes = self.random.chance(600);
            self.plan_batch(control, writes);
        } else if self.random.chance(self.profile.four) {
            self.plan_four(control);
        }
    }

    /// Most often the plan's next call. Most uses of a transaction closed
    /// meanwhile are left out.
    fn planned(&mut self, control: &Control) -> Option<Call> {
        if !self.random.chance(880) {
            return None;
        }
        while let Some(call) = self.plan.pop_front() {
            let closed = call.used_transaction().is_some_and(|transaction| !control.is_open(transaction));
            if !closed || self.random.chance(50) {
                return Some(call);
            }
        }
        None
    }

    fn operation(&mut self) -> u8 {
        let total: usize = self.profile.weights.iter().sum();
        let mut left = self.random.below(total);
        for (operation, weight) in (0..).zip(self.profile.weights) {
            if left < weight {
                return operation;
            }
            left -= weight;
        }
        unreachable!()
    }
}
