//! Placing by a plant's table, change request A.6.

use crate::calls::{add_placement, Answer};
use crate::control::{has, Control};
use crate::edition::Edition;
use crate::image::{BLOCKS, CARDS};
use crate::sites::{Pairs, Placement};

/// First block, last block, first card, second card.
pub const LINE_BYTES: usize = 4;
pub const MOST_LINES: usize = 64;

/// From the first block to the last, the blocks lie on these two cards.
#[derive(Clone, Copy, Debug, PartialEq, Eq)]
pub struct Line {
    pub first: u8,
    pub last: u8,
    pub cards: [u8; 2],
}

impl Line {
    fn in_range(&self) -> bool {
        self.first <= self.last && (self.last as usize) < BLOCKS && self.cards.iter().all(|c| (*c as usize) < CARDS)
    }

    fn covers(&self, block: usize) -> bool {
        (self.first as usize..=self.last as usize).contains(&block)
    }
}

/// The lines in lent bytes. None when they are not whole lines, too many, or a number is outside its range.
pub fn read_lines(bytes: &[u8]) -> Option<Vec<Line>> {
    if bytes.len() % LINE_BYTES != 0 || bytes.len() > MOST_LINES * LINE_BYTES {
        return None;
    }
    let line = |four: &[u8]| Line { first: four[0], last: four[1], cards: [four[2], four[3]] };
    let lines: Vec<Line> = bytes.chunks(LINE_BYTES).map(line).collect();
    lines.iter().all(Line::in_range).then_some(lines)
}

/// The lent bytes of lines.
pub fn write_lines(lines: &[Line]) -> Vec<u8> {
    lines.iter().flat_map(|line| [line.first, line.last, line.cards[0], line.cards[1]]).collect()
}

/// The pair of each block, where these cards work; else the refusal.
pub fn pairs_of(lines: &[Line], working: u8) -> Result<Pairs, u8> {
    let unfit = |line: &Line| line.cards[0] == line.cards[1] || line.cards.iter().any(|c| !has(working, *c as usize));
    if lines.iter().any(unfit) {
        return Err(9);
    }
    let covering: Vec<Vec<&Line>> =
        (0..BLOCKS).map(|block| lines.iter().filter(|line| line.covers(block)).collect()).collect();
    if covering.iter().any(|lines| lines.is_empty()) {
        return Err(17);
    }
    if covering.iter().any(|lines| lines.len() > 1) {
        return Err(18);
    }
    Ok(std::array::from_fn(|block| covering[block][0].cards))
}

/// The cards that the lines name become the newest placement, by today's rules.
pub fn place_by_table(image: &mut [u8], bytes: &[u8]) -> Answer {
    place_by_table_by(Edition::Today, image, bytes)
}

/// By the rules of an edition that has tables.
pub fn place_by_table_by(edition: Edition, image: &mut [u8], bytes: &[u8]) -> Answer {
    if image.len() != edition.length() {
        return Answer::Refused(1);
    }
    let Some(mut control) = Control::read_by(edition, image) else { return Answer::Refused(2) };
    let Some(lines) = read_lines(bytes) else { return Answer::Refused(3) };
    if control.stopped {
        return Answer::Refused(4);
    }
    let pairs = match pairs_of(&lines, control.working) {
        Err(number) => return Answer::Refused(number),
        Ok(pairs) => pairs,
    };
    if let Some(number) = edition.no_room(control.placements.len(), control.serial) {
        return Answer::Refused(number);
    }
    add_placement(edition, image, &mut control, Placement::by_table(pairs));
    control.write(image);
    Answer::Ok
}
