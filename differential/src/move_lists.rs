//! The move list: the archive against the model, and against its own moves and settles on copies of the image.

use crate::archive::{self, code, NUMBER_RANGE, REFUSED};
use crate::lent::{entries, Lent};
use crate::pair::{Pair, ALIGNMENTS};
use crate::run::Run;
use crate::single::any_image;
use model::control::Control;
use model::image::{locked, CARDS};
use model::move_list::{fewest_moves, running, ListAnswer, Move, MOST_MOVES};
use model::move_list_images::reorganising_image;
use model::move_list_situations::{
    move_list_situations, room_situations, MOVE_LISTS, MOVE_LISTS_REACHED, ROOMS,
};
use model::random::Random;
use model::{Answer, Call};

/// Where the image comes from.
#[derive(Clone, Copy, PartialEq, Eq)]
pub enum Origin {
    Any,
    /// Calls after a start.
    Reached,
}

const ODD: &str = "listed in a list of odd length";
const SETTLED: &str = "settled by the archive's own moves of the list";
const ONE_LEFT_OUT: &str = "refused 13 with one move left out";
const NONE_REFUSED: &str = "none, and the archive refuses to settle";
const NO_MOVE: &str = "none, and the archive refuses every move of a locked block";

/// One in so many images is of any kind, stopped and broken ones and other lengths too; the others are in the middle
/// of a reorganisation.
const ANY_KIND: usize = 4;

fn name(origin: Origin, situation: &str) -> String {
    let place = if origin == Origin::Any { "" } else { " after a start" };
    format!("move list{place}: {situation}")
}

/// Classes that a run over images of any contents must meet.
pub fn image_classes() -> Vec<String> {
    let checks = [ODD, SETTLED, ONE_LEFT_OUT, NONE_REFUSED];
    let all = MOVE_LISTS.iter().chain(ROOMS).chain(&checks);
    all.map(|situation| name(Origin::Any, situation)).collect()
}

/// Classes that lists of calls after a start must meet.
pub fn list_classes() -> Vec<String> {
    let checks = [SETTLED, ONE_LEFT_OUT, NONE_REFUSED, NO_MOVE];
    MOVE_LISTS_REACHED.iter().chain(&checks).map(|situation| name(Origin::Reached, situation)).collect()
}

/// What differences are reported of.
#[derive(Debug)]
#[allow(dead_code)] // its fields are printed
struct Asked {
    image: usize,
    list_bytes: usize,
}

/// The lists of a run. They have random numbers of their own, so the other calls of a seed do not depend on them.
pub struct MoveLists {
    random: Random,
    pair: Pair,
    images: usize,
}

/// This many images.
pub fn run(run: &mut Run, images: usize) {
    let mut lists = MoveLists::new(run.seed);
    for round in 0..images {
        let image = match round % ANY_KIND {
            0 => any_image(&mut lists.random, round / ANY_KIND),
            _ => reorganising_image(&mut lists.random, 1 + round / ANY_KIND % 4),
        };
        lists.check(run, Origin::Any, &image);
    }
}

impl MoveLists {
    pub fn new(seed: u64) -> MoveLists {
        MoveLists { random: Random::new(!seed), pair: Pair::default(), images: 0 }
    }

    /// True this many times in a thousand.
    pub fn chance(&mut self, in_thousand: usize) -> bool {
        self.random.chance(in_thousand)
    }

    /// Lists of several lengths on one image; then what the archive's own calls say of the answer.
    pub fn check(&mut self, run: &mut Run, origin: Origin, image: &[u8]) {
        self.images += 1;
        self.pair.load(image, self.random.below(ALIGNMENTS));
        let control = running(image).ok();
        let moves = control.as_ref().map_or(Vec::new(), |control| fewest_moves(image, control));
        for length in lengths(&mut self.random, moves.len()) {
            let answer = self.ask(run, length);
            for situation in room_situations(moves.len(), length / 2, &answer) {
                run.cases.add(&name(origin, situation));
            }
            if length % 2 == 1 && matches!(answer, ListAnswer::Listed(1..)) {
                run.cases.add(&name(origin, ODD));
            }
        }
        let Some(control) = control else { return };
        let list_bytes = 2 * MOST_MOVES;
        let answer = self.ask(run, list_bytes);
        for situation in move_list_situations(image, &control, &moves, &answer) {
            run.cases.add(&name(origin, &situation));
        }
        let checked = match answer {
            ListAnswer::Listed(_) => self.check_moves(image, &control, &moves),
            _ => check_none(image, origin, &moves),
        };
        for (situation, fault) in checked {
            run.cases.add(&name(origin, situation));
            if let Some(fault) = fault {
                run.report(&Asked { image: self.images, list_bytes }, &fault);
            }
        }
    }

    /// The model's answer to a lent list of this length. The archive's answer, the list and the image are compared.
    fn ask(&mut self, run: &mut Run, length: usize) -> ListAnswer {
        let lent = Lent::random(&mut self.random, length);
        let (mut found, mut wanted) = (lent.clone(), entries(lent.bytes()));
        let asked = Asked { image: self.images, list_bytes: length };
        let outcome = self.pair.move_list(found.bytes_mut(), &mut wanted);
        run.lists += 1;
        if !outcome.same() {
            run.report(&asked, &outcome.to_string());
        }
        if let Some(byte) = found.different_byte(&lent.with_entries(&wanted)) {
            run.report(&asked, &format!("{}; of the list, {byte}", outcome.answer));
        }
        outcome.answer
    }

    /// What the archive does after all of the moves, and after all but one.
    fn check_moves(&mut self, image: &[u8], control: &Control, moves: &[Move]) -> Vec<(&'static str, Option<String>)> {
        let retired = Answer::Retired(control.placements.len() as u8 - 1);
        let mut checked = vec![(SETTLED, settle_after(image, moves, retired))];
        if !moves.is_empty() {
            let mut others = moves.to_vec();
            others.remove(self.random.below(moves.len()));
            checked.push((ONE_LEFT_OUT, settle_after(image, &others, Answer::Refused(13))));
        }
        checked
    }
}

/// Lengths in bytes of the lists that are lent for so many moves: exact, too short, too long, odd, any.
fn lengths(random: &mut Random, needed: usize) -> [usize; 4] {
    let exact = 2 * needed;
    let short = exact.saturating_sub(1 + random.below(4));
    let long = exact + 1 + random.below(4);
    let any = [0, 1, random.below(exact + 1), exact + random.below(2 * MOST_MOVES)];
    [exact, short, long, random.one_of(&any)]
}

fn move_code(image: &mut [u8], card: u8, block: u8) -> u32 {
    archive::perform(image, &Call::Move { card, block: block.into() })
}

/// The archive makes the moves on a copy and settles; what is wrong with its answers.
fn settle_after(image: &[u8], moves: &[Move], wanted: Answer) -> Option<String> {
    let mut image = image.to_vec();
    for from in moves {
        let found = move_code(&mut image, from.card, from.block);
        if found / NUMBER_RANGE != code(Answer::Copies(0)) / NUMBER_RANGE {
            return Some(format!("the archive answers {found:#X} to {from:?} of the list"));
        }
    }
    let found = archive::perform(&mut image, &Call::Settle);
    let number = moves.len();
    (found != code(wanted)).then(|| format!("after {number} moves of the list the archive's settle answers {found:#X}"))
}

/// The archive refuses to settle, and to make the moves that are locked; after a start, every move of their blocks.
fn check_none(image: &[u8], origin: Origin, moves: &[Move]) -> Vec<(&'static str, Option<String>)> {
    let mut checked = vec![(NONE_REFUSED, settle_after(image, &[], Answer::Refused(13)))];
    let by_locks: Vec<&Move> = moves.iter().filter(|from| locked(image, from.card.into(), from.block.into())).collect();
    checked.push((NONE_REFUSED, by_locks.is_empty().then(|| "none, and no move is locked".into())));
    for from in by_locks {
        let by_lock = move_code(&mut image.to_vec(), from.card, from.block) == code(Answer::Refused(12));
        checked.push((NONE_REFUSED, (!by_lock).then(|| format!("the archive does not refuse {from:?} with 12"))));
        if origin == Origin::Reached {
            let accepts = |card: &u8| move_code(&mut image.to_vec(), *card, from.block) / NUMBER_RANGE != REFUSED;
            let made = (0..CARDS as u8).find(accepts);
            checked.push((NO_MOVE, made.map(|card| format!("the archive moves block {} from {card}", from.block))));
        }
    }
    checked
}
