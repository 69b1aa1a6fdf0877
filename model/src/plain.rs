//! The plain record list, fed the calls with their arguments alone.

use crate::calls::{perform_by, Answer, Call};
use crate::control::{bit, count, has, Homes, NO_HOMES};
use crate::converter::{lengthen, CONVERTED_SERIAL};
use crate::edition::Edition;
use crate::image::{CARDS, RECORDS};
use crate::returns::return_card;
use crate::sites::Placement;
use crate::table::{pairs_of, place_by_table_by, read_lines};

#[derive(Clone, Copy)]
struct Record {
    committed: Option<u16>,
    lock: u8,
    pending: Option<u16>,
}

const BLANK: Record = Record { committed: None, lock: 0, pending: None };

pub struct Plain {
    /// The rules that the calls follow from here on.
    edition: Edition,
    records: [Record; RECORDS],
    homes: Homes,
    pub stopped: bool,
    /// How often the list stopped since its start.
    pub stops: usize,
    pub working: u8,
    pub failed: u8,
    /// Oldest first.
    pub active: Vec<Placement>,
    /// Of the newest placement, so that refusal 20 follows from the calls.
    pub serial: u32,
    /// A run of the rules over the same calls, for settle's condition and for which returns are taken.
    rules: Vec<u8>,
}

/// What demand 3 says of the store's answer to a call.
#[derive(Clone, Copy, Debug, PartialEq, Eq)]
pub enum Expected {
    /// The answer is this one.
    Exactly(Answer),
    /// The answer is 'stopped'.
    Stops,
    /// The answer is anything but 'stopped'.
    Free,
}

/// The number of the first condition that holds.
fn lowest(conditions: &[(u8, bool)]) -> Option<u8> {
    conditions.iter().find(|(_, holds)| *holds).map(|(number, _)| *number)
}

impl Plain {
    /// The list after an accepted start.
    pub fn start(edition: Edition, mask: u8) -> Plain {
        let mut rules = vec![0; edition.length()];
        perform_by(edition, &mut rules, &Call::Start { mask });
        Plain {
            edition,
            records: [BLANK; RECORDS],
            homes: NO_HOMES,
            stopped: false,
            stops: 0,
            working: mask,
            failed: 0,
            active: vec![edition.placement(mask)],
            serial: edition.has_serials().into(),
            rules,
        }
    }

    /// The calls from here on follow these rules; what is there stays.
    pub fn go_on_by(&mut self, edition: Edition) {
        self.rules = lengthen(&self.rules, edition).expect("calls keep the form");
        if edition.has_serials() && !self.edition.has_serials() {
            self.serial = CONVERTED_SERIAL;
        }
        self.edition = edition;
    }

    /// Steps the list by a placing with the lines in these bytes; its answer follows from the list's own fields.
    pub fn place_by_table(&mut self, bytes: &[u8]) -> Answer {
        place_by_table_by(self.edition, &mut self.rules, bytes);
        let Some(lines) = read_lines(bytes) else { return Answer::Refused(3) };
        if self.stopped {
            return Answer::Refused(4);
        }
        let pairs = match pairs_of(&lines, self.working) {
            Err(number) => return Answer::Refused(number),
            Ok(pairs) => pairs,
        };
        if let Some(number) = self.edition.no_room(self.active.len(), self.serial) {
            return Answer::Refused(number);
        }
        self.add(Placement::by_table(pairs));
        Answer::Ok
    }

    /// Steps the list by a return of a card whose table has the bytes of its failing. Where the rules take it, the
    /// card works, and the list runs again if it can.
    pub fn return_card(&mut self, card: u8) -> Answer {
        let by_the_rules = return_card(&mut self.rules, card);
        if by_the_rules == Answer::Ok {
            self.working |= bit(card as usize);
            self.failed &= !bit(card as usize);
            let whole = self.newest().mask & !self.working == 0;
            self.stopped = !whole || self.must_stop(self.working, self.failed);
        }
        by_the_rules
    }

    /// What a return of a card with a stale table is refused with. It is no step.
    pub fn refused_return(&self, card: u8) -> Answer {
        let failed = |card: u8| has(self.failed, card as usize);
        Answer::Refused(match card {
            8.. => 3,
            _ if !self.stopped || !failed(card) => 8,
            _ => 19,
        })
    }

    fn add(&mut self, newest: Placement) {
        self.active.push(newest);
        self.serial += u32::from(self.edition.has_serials());
    }

    fn newest(&self) -> Placement {
        self.active[self.active.len() - 1]
    }

    /// Refusals that the list knows by itself: of all calls but settle, fail,
    /// move, state and load.
    fn refusal(&self, call: &Call) -> Option<u8> {
        let is_open = |transaction: u8| self.homes[transaction as usize].is_some();
        let works = |card: u8| has(self.working, card as usize);
        let placed = |card: u8| self.active.iter().any(|placement| has(placement.mask, card as usize));
        match *call {
            Call::Settle | Call::Fail { .. } | Call::Move { .. } | Call::State | Call::Load { .. } => None,
            _ if !call.in_range(self.edition) => Some(3),
            Call::Start { mask } => lowest(&[(9, count(mask) < 2)]),
            _ if self.stopped => Some(4),
            Call::Begin { transaction, home } => {
                lowest(&[(6, is_open(transaction)), (8, !has(self.newest().mask, home as usize))])
            }
            Call::Get { transaction, record }
            | Call::Store { transaction, record, .. }
            | Call::Delete { transaction, record } => {
                let lock = self.records[record as usize].lock;
                lowest(&[(5, !is_open(transaction)), (7, lock != 0 && lock != transaction)])
            }
            Call::Commit { transaction } | Call::Rollback { transaction } => lowest(&[(5, !is_open(transaction))]),
            Call::Fit { card } => lowest(&[(8, works(card) || placed(card))]),
            Call::Withdraw { card } => {
                lowest(&[(8, !works(card) || placed(card)), (14, self.homes.contains(&Some(card)))])
            }
            Call::Place { mask } => {
                let again = mask == self.newest().mask && self.edition.refuses_again(self.newest());
                let unfit = count(mask) < 2 || mask & !self.working != 0 || again;
                lowest(&[(9, unfit)]).or(self.edition.no_room(self.active.len(), self.serial))
            }
        }
    }

    /// Steps the list.
    pub fn step(&mut self, call: &Call) -> Expected {
        let by_the_rules = perform_by(self.edition, &mut self.rules, call);
        if let Some(number) = self.refusal(call) {
            return Expected::Exactly(Answer::Refused(number));
        }
        match *call {
            Call::Fail { card } => self.fail(card),
            Call::Move { .. } | Call::State | Call::Load { .. } => Expected::Free,
            Call::Settle => {
                if let Answer::Retired(_) = by_the_rules {
                    self.active = vec![self.newest()];
                }
                Expected::Exactly(by_the_rules)
            }
            _ => Expected::Exactly(self.accept(call)),
        }
    }

    /// Steps the list by a call of those that it can refuse, and does not.
    fn accept(&mut self, call: &Call) -> Answer {
        match *call {
            Call::Start { mask } => *self = Plain::start(self.edition, mask),
            Call::Begin { transaction, home } => self.homes[transaction as usize] = Some(home),
            Call::Get { transaction, record } => {
                return self.seen(transaction, record).map_or(Answer::Absent, Answer::Value);
            }
            Call::Store { transaction, record, value } => self.lock(transaction, record, Some(value)),
            Call::Delete { transaction, record } => {
                if self.seen(transaction, record).is_none() {
                    return Answer::Absent;
                }
                self.lock(transaction, record, None);
            }
            Call::Commit { transaction } => self.end(transaction, true),
            Call::Rollback { transaction } => self.end(transaction, false),
            Call::Fit { card } => {
                self.working |= bit(card as usize);
                self.failed &= !bit(card as usize);
            }
            Call::Withdraw { card } => self.working &= !bit(card as usize),
            Call::Place { mask } => self.add(self.edition.placement(mask)),
            _ => unreachable!("{call:?}"),
        }
        Answer::Ok
    }

    /// What a get of the transaction sees.
    fn seen(&self, transaction: u8, record: u16) -> Option<u16> {
        let entry = &self.records[record as usize];
        if entry.lock == transaction { entry.pending } else { entry.committed }
    }

    fn lock(&mut self, transaction: u8, record: u16, pending: Option<u16>) {
        let entry = &mut self.records[record as usize];
        entry.lock = transaction;
        entry.pending = pending;
    }

    /// The records that the transaction locks take or drop the pending state; it closes.
    fn end(&mut self, transaction: u8, take: bool) {
        for entry in self.records.iter_mut().filter(|entry| entry.lock == transaction) {
            let committed = if take { entry.pending } else { entry.committed };
            *entry = Record { committed, ..BLANK };
        }
        self.homes[transaction as usize] = None;
    }

    fn fail(&mut self, card: u8) -> Expected {
        if self.stopped {
            return self.fail_stopped(card);
        }
        if card > 7 || !has(self.working, card as usize) {
            return Expected::Free;
        }
        self.mark_failed(card);
        self.stopped = self.must_stop(self.working, self.failed);
        for transaction in 1..=15 {
            let home = self.homes[transaction as usize];
            if home == Some(card) || self.stopped && home.is_some() {
                self.end(transaction, false);
            }
        }
        if self.stopped {
            self.stops += 1;
            return Expected::Stops;
        }
        let left = self.newest().mask & !bit(card as usize);
        if left != self.newest().mask {
            self.add(self.edition.placement(left));
        }
        Expected::Free
    }

    /// A stopped list only marks the card, by editions that can take it back.
    fn fail_stopped(&mut self, card: u8) -> Expected {
        let refused = |number| Expected::Exactly(Answer::Refused(number));
        match card {
            8.. => refused(3),
            _ if !self.edition.has_serials() => refused(4),
            _ if !has(self.working, card as usize) => refused(8),
            _ => {
                self.mark_failed(card);
                Expected::Stops
            }
        }
    }

    fn mark_failed(&mut self, card: u8) {
        self.working &= !bit(card as usize);
        self.failed |= bit(card as usize);
    }

    /// With these cards working and these failed, some active placement has two failed cards or fewer than two
    /// working ones.
    fn must_stop(&self, working: u8, failed: u8) -> bool {
        self.active.iter().any(|Placement { mask, .. }| count(mask & failed) >= 2 || count(mask & working) < 2)
    }

    /// What state says by today's rules. Demand 3 leaves it open; the list's cards and placements decide it.
    pub fn state(&self) -> Answer {
        if self.stopped {
            return Answer::Refused(4);
        }
        let mut working = (0..CARDS).map(bit).filter(|card| self.working & card != 0);
        let unprotected = working.any(|card| self.must_stop(self.working & !card, self.failed | card));
        if unprotected { Answer::Unprotected } else { Answer::Protected }
    }
}
