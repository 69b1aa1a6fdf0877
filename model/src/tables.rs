//! Random tables of plants, good ones and such as a placing refuses.

use crate::image::{BLOCKS, CARDS};
use crate::random::Random;
use crate::sites::members;
use crate::table::{write_lines, Line, MOST_LINES};

/// The bytes of a table's lines; so many in a thousand have faults.
pub fn random_table(random: &mut Random, working: u8, faulty: usize) -> Vec<u8> {
    let mut lines = good_lines(random, working);
    if !random.chance(faulty) {
        return write_lines(&lines);
    }
    let mut bytes_more = 0;
    for _ in 0..1 + random.below(2) {
        match random.below(12) {
            0..=8 => fault(random, &mut lines),
            9 => lines.clear(),
            10 => lines = any_lines(random),
            _ => bytes_more = 1 + random.below(3),
        }
    }
    let mut bytes = write_lines(&lines);
    bytes.extend((0..bytes_more).map(|_| random.byte() % 8));
    bytes
}

/// Each block in one line, in any order, on any two of the working cards, or of few of them.
pub fn good_lines(random: &mut Random, working: u8) -> Vec<Line> {
    let mut cards = members(working);
    if cards.len() < 2 {
        cards = (0..CARDS).collect();
    }
    random.shuffle(&mut cards);
    if random.chance(500) {
        cards.truncate(2 + random.below(cards.len() - 1));
    }
    let number = match random.below(5) {
        0 => 1,
        1 => MOST_LINES,
        2 => 1 + random.below(MOST_LINES),
        _ => 2 + random.below(6),
    };
    let mut firsts: Vec<usize> = (1..BLOCKS).collect();
    random.shuffle(&mut firsts);
    firsts.truncate(number - 1);
    firsts.extend([0, BLOCKS]);
    firsts.sort();
    let mut lines: Vec<Line> = Vec::new();
    for bounds in firsts.windows(2) {
        random.shuffle(&mut cards);
        let pair = [cards[0] as u8, cards[1] as u8];
        lines.push(Line { first: bounds[0] as u8, last: bounds[1] as u8 - 1, cards: pair });
    }
    random.shuffle(&mut lines);
    lines
}

/// One fault; the lines may be none.
fn fault(random: &mut Random, lines: &mut Vec<Line>) {
    if lines.is_empty() {
        return;
    }
    let at = random.below(lines.len());
    let line = &mut lines[at];
    match random.below(9) {
        0 => {
            lines.remove(at);
        }
        1 => lines.push(Line { last: lines[at].first, ..lines[at] }),
        2 => line.cards[1] = line.cards[0],
        3 => line.cards[random.below(2)] = random.below(CARDS) as u8,
        4 => line.cards[random.below(2)] = random.one_of(&[8, 9, 128, 255]),
        5 => line.last = random.one_of(&[64, 65, 128, 255]),
        6 => line.first = line.last.saturating_add(1),
        7 => line.first = line.first.saturating_sub(1 + random.below(3) as u8),
        _ => {
            let copied = lines[at];
            lines.resize(MOST_LINES + 1 + random.below(3), copied);
        }
    }
}

/// As many lines as may be, of small numbers.
fn any_lines(random: &mut Random) -> Vec<Line> {
    let mut line = |_| {
        let mut number = |bound: usize| random.below(bound) as u8;
        Line { first: number(40), last: 20 + number(45), cards: [number(8), number(8)] }
    };
    (0..6).map(&mut line).collect()
}
