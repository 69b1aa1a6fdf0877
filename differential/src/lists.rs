//! Long lists of calls with any bytes in the tables of failed cards, compared with the plain record list too. They go
//! on through stops: cards are returned, most often with the bytes of their failing. Some lists go on from an image
//! that calls of earlier editions left.

use crate::archive::code;
use crate::broken_wire;
use crate::conversions;
use crate::move_lists::{self, MoveLists, Origin};
use crate::pair::{Outcome, Pair, Request, ALIGNMENTS};
use crate::protection::{self, IN_LIST};
use crate::returns;
use crate::run::Run;
use crate::tables;
use model::at_failing::AtFailing;
use model::commands::{read_command, COMMAND_BYTES};
use model::control::{form_of, Control, NO_HOMES, SERIAL};
use model::edition::Edition;
use model::image::{table_at, CONTROL};
use model::images::disturb;
use model::kinds::KINDS;
use model::lists::{List, Lists, Step, HISTORIES};
use model::plain::{Expected, Plain};
use model::random::Random;
use model::rail_situations::{rail_situations, OVER_OLD};
use model::sites::members;
use model::tally::OPERATIONS;
use model::{Answer, Call};

/// Calls in a thousand after which the moves are listed.
const MOVES_LISTED: usize = 20;

const NOISE: &str = "list call with bytes put into a failed card's table";
const STOP: &str = "stop, as the plain list says";
const NO_STOP: &str = "fail of a working card, no stop as the plain list says";
const NEXT_STOP: &str = "stop behind a stop, as the plain list says";
const KEPT_RETURN: &str = "return of a card with the bytes of its failing";
const WRONG_RETURN: &str = "return of a card with other bytes than at its failing, refused 19";

/// Operations whose answers are the plain list's: get, store, delete, commit and rollback.
const PLAIN_OPERATIONS: std::ops::RangeInclusive<usize> = 2..=6;

/// The plain list has a word for it, beyond demand 3.
const STATE: usize = 13;

fn list_name(kind: &str, from_older: bool) -> String {
    format!("call of a list of kind {kind}{}", if from_older { ", from an older image" } else { "" })
}

fn beginning_name(history: &[Edition], active: usize) -> String {
    format!("list from an image of {history:?} with {active} active")
}

fn plain_name(operation: usize, refused: bool, behind: bool) -> String {
    let (name, ..) = OPERATIONS[operation];
    let (refused, behind) = (if refused { " refused" } else { "" }, if behind { ", behind a stop" } else { "" });
    format!("{name}{refused}, as the plain list says{behind}")
}

fn stop_name(active: usize) -> String {
    format!("stop with {active} active, as the plain list says")
}

/// Classes of calls in lists that a run must meet.
pub fn classes() -> Vec<String> {
    let mut all: Vec<String> = KINDS.iter().flat_map(|(name, _)| [false, true].map(|o| list_name(name, o))).collect();
    all.extend(HISTORIES.iter().flat_map(|history| (1..=4).map(|active| beginning_name(history, active))));
    for behind in [false, true] {
        all.extend(PLAIN_OPERATIONS.flat_map(|operation| [false, true].map(|r| plain_name(operation, r, behind))));
        all.push(plain_name(STATE, false, behind));
    }
    all.extend((1..=4).map(stop_name));
    all.extend([NOISE, STOP, NO_STOP, NEXT_STOP, KEPT_RETURN, WRONG_RETURN].map(String::from));
    all.extend(OVER_OLD.iter().map(|name| name.to_string()));
    all.extend(move_lists::list_classes());
    all
}

/// This many calls, in the lists of the run's seed.
pub fn run(run: &mut Run, calls: usize) {
    let end = run.calls + calls;
    let mut move_lists = MoveLists::new(run.seed);
    for list in Lists::new(run.seed) {
        let left = end - run.calls;
        if left == 0 {
            break;
        }
        ListRun::new(run, list).run(run, &mut move_lists, left);
    }
}

struct ListRun {
    pair: Pair,
    list: List,
    at_failing: AtFailing,
}

impl ListRun {
    fn new(run: &mut Run, list: List) -> ListRun {
        if let Some(older) = &list.older {
            let mut random = Random::new(run.calls as u64);
            conversions::check_left(run, &mut random, older, list.image());
        }
        let mut pair = Pair::default();
        pair.load(list.image(), run.random.below(ALIGNMENTS));
        if let Some(plain) = &list.plain {
            run.cases.add(&beginning_name(list.history, plain.active.len()));
        }
        let at_failing = AtFailing::new(pair.image());
        ListRun { pair, list, at_failing }
    }

    fn run(&mut self, run: &mut Run, move_lists: &mut MoveLists, most: usize) {
        let name = list_name(self.list.name, self.list.from_older());
        for _ in 0..self.list.calls.min(most) {
            let step = self.list.next_step();
            self.disturb(run);
            run.cases.add(&name);
            run.behind_stops += usize::from(self.list.is_behind_a_stop());
            match step {
                Step::Command(bytes) => self.command(run, &bytes),
                Step::Table(lines) => self.table(run, &lines),
                Step::Return { card, kept } => self.return_card(run, card, kept),
            }
            self.at_failing.note(self.pair.image());
            let runs = self.list.plain.as_ref().is_some_and(|plain| !plain.stopped);
            if runs && move_lists.chance(MOVES_LISTED) {
                move_lists.check(run, Origin::Reached, self.pair.archive_image());
            }
        }
    }

    fn command(&mut self, run: &mut Run, bytes: &[u8; COMMAND_BYTES]) {
        let Some(call) = read_command(bytes) else {
            run.perform(&mut self.pair, &Request::Command(bytes));
            return;
        };
        let wide = matches!(call, Call::Move { block: 256.., .. });
        let by_bytes = wide || run.random.chance(300);
        let request = if by_bytes { Request::Command(bytes) } else { Request::Call(call) };
        let before = self.pair.image().to_vec();
        let outcome = run.perform(&mut self.pair, &request);
        count_situations(run, &before, &call, &outcome);
        self.compare_with_plain(run, &request, &call, &outcome);
    }

    fn table(&mut self, run: &mut Run, lines: &[u8]) {
        let before = self.pair.image().to_vec();
        let request = Request::Table(lines);
        let outcome = run.perform(&mut self.pair, &request);
        tables::count(run, tables::IN_LIST, &before, lines, &outcome.answer);
        let expected = self.list.expect_table(lines);
        self.compare_answer(run, &request, expected, &outcome);
    }

    /// A card comes back with the bytes of its failing, or is stale.
    fn return_card(&mut self, run: &mut Run, card: u8, kept: bool) {
        let mut keeps = kept;
        let table = if card < 8 { vec![table_at(card.into())] } else { vec![] };
        let at_failing = &self.at_failing;
        self.pair.change(&table, |image| keeps = at_failing.prepare_return(image, card, kept));
        let before = self.pair.image().to_vec();
        let request = Request::Return(card);
        let outcome = run.perform(&mut self.pair, &request);
        returns::count(run, returns::IN_LIST, &before, card, &outcome.answer);
        match outcome.answer {
            Answer::Ok => run.cases.add(KEPT_RETURN),
            Answer::Refused(19) if !keeps => run.cases.add(WRONG_RETURN),
            _ => {}
        }
        let expected = self.list.expect_return(card, keeps);
        self.compare_answer(run, &request, expected, &outcome);
    }

    /// The archive's answer to a call without a command, and its control part, against the plain list.
    fn compare_answer(&self, run: &mut Run, request: &Request, expected: Option<Answer>, outcome: &Outcome) {
        let Some(answer) = expected else { return };
        let same = self.list.plain.as_ref().is_some_and(|plain| same_cards(plain, self.pair.archive_image()));
        if outcome.code != code(answer) || !same {
            run.report(request, &format!("the plain list expects {answer}; same cards: {same}; {outcome}"));
        }
    }

    fn disturb(&mut self, run: &mut Run) {
        let failed = members(self.pair.image()[6]);
        if failed.is_empty() {
            return;
        }
        run.cases.add(NOISE);
        let tables: Vec<_> = failed.into_iter().map(table_at).collect();
        self.pair.change(&tables, |image| disturb(&mut run.random, image));
    }

    /// The archive's answer and control part against the plain list.
    fn compare_with_plain(&mut self, run: &mut Run, request: &Request, call: &Call, outcome: &Outcome) {
        let behind = self.list.is_behind_a_stop();
        let was_stopped = self.list.plain.as_ref().is_some_and(|plain| plain.stopped);
        let Some(expected) = self.list.expect(call) else { return };
        let stopped = outcome.code == code(Answer::Stopped);
        let agrees = match expected {
            Expected::Exactly(answer) => outcome.code == code(answer),
            Expected::Stops => stopped,
            Expected::Free => !stopped,
        };
        count_plain(run, request.operation(), call, outcome, expected, behind);
        let image = self.pair.archive_image();
        let plain = self.list.plain.as_ref();
        if let (Expected::Stops, Some(plain), false) = (expected, plain, was_stopped) {
            run.cases.add(&stop_name(plain.active.len()));
            run.cases.add(if behind { NEXT_STOP } else { STOP });
        }
        let same_cards = plain.is_none_or(|plain| same_cards(plain, image));
        let same_word = *call != Call::State || plain.is_none_or(|plain| outcome.code == code(plain.state()));
        if !agrees || !same_cards || !same_word {
            let same = format!("same cards: {same_cards}, same word of state: {same_word}");
            run.report(request, &format!("the plain list expects {expected:?}; {same}; {outcome}"));
        }
    }
}

/// What is special about 65,535, in a store with old placements or with tables, and about a state.
fn count_situations(run: &mut Run, before: &[u8], call: &Call, outcome: &Outcome) {
    broken_wire::count(run, broken_wire::IN_LIST, before, call, &outcome.answer);
    returns::count_call(run, returns::IN_LIST, before, call, &outcome.answer);
    let in_range = call.in_range(Edition::Today);
    let Some(control) = Control::read(before).filter(|control| !control.stopped && in_range) else { return };
    for name in rail_situations(&control, call, &outcome.answer) {
        run.cases.add(&name);
    }
    tables::count_call(run, &control, call, &outcome.answer);
    protection::count(run, IN_LIST, &control, call, &outcome.answer);
}

fn count_plain(run: &mut Run, operation: usize, call: &Call, outcome: &Outcome, expected: Expected, behind: bool) {
    match (expected, outcome.answer) {
        (Expected::Exactly(answer), _) if PLAIN_OPERATIONS.contains(&operation) => {
            run.cases.add(&plain_name(operation, matches!(answer, Answer::Refused(_)), behind));
        }
        (Expected::Free, Answer::Protected | Answer::Unprotected) => run.cases.add(&plain_name(STATE, false, behind)),
        (Expected::Free, Answer::Placed(_) | Answer::Unplaced) if matches!(call, Call::Fail { .. }) => {
            run.cases.add(NO_STOP)
        }
        _ => {}
    }
}

/// Working, failed and active, with the marks and what is kept, the serial and whether the store runs are there as the
/// plain list has them.
fn same_cards(plain: &Plain, image: &[u8]) -> bool {
    let Plain { stopped, working, failed, serial, .. } = *plain;
    let placements = plain.active.clone();
    let wanted = Control { stopped, placements, working, failed, homes: NO_HOMES, serial }.form();
    let found = form_of(image);
    found[..8] == wanted[..8] && found[SERIAL] == wanted[SERIAL] && found[CONTROL..] == wanted[CONTROL..]
}
