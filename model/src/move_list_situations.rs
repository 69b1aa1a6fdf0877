//! What is special about a call of the move list, by name, so that it can be counted.

use crate::control::{has, Control};
use crate::image::*;
use crate::move_list::{holding, ListAnswer, Move};
use crate::sites::{sites, Placement};

/// From here on a list is long.
const MANY: usize = 32;

/// What a run over images of any contents must meet.
pub const MOVE_LISTS: &[&str] = &[
    "listed 0, no blocks", "listed 0, blocks in place", "listed 0, locked where it need not move",
    "listed 0, held by a card that does not work", "listed 0 with 1 active", "listed 0 with 2 active",
    "listed 0 with 3 active", "listed 0 with 4 active", "listed, many", "listed, a stray sends",
    "listed, a site sends", "listed, two strays of one block", "listed, newest by the old choice",
    "listed, newest by rails", "listed, newest by table", "listed, by rails over a table",
    "listed, active of all kinds", "listed, locked where it need not move", "listed, a locked site beside strays",
    "listed, held by a card that does not work", "listed with 1 active", "listed with 2 active",
    "listed with 3 active", "listed with 4 active", "none by a stray", "none by a site", "none with 1 active",
    "none with 2 active", "none with 3 active", "none with 4 active",
];

/// What lists of calls after a start must meet. They leave no move to make with one placement active, and no lock
/// on some copies of a block alone.
pub const MOVE_LISTS_REACHED: &[&str] = &[
    "listed 0, no blocks", "listed 0, blocks in place", "listed 0, locked where it need not move",
    "listed 0 with 1 active", "listed 0 with 2 active", "listed 0 with 3 active", "listed, a stray sends",
    "listed, a site sends", "listed, two strays of one block", "listed, newest by the old choice",
    "listed, newest by rails", "listed, newest by table", "listed, by rails over a table",
    "listed, active of all kinds", "listed, locked where it need not move", "listed with 2 active",
    "listed with 3 active", "listed with 4 active", "none by a stray", "none by a site", "none with 2 active",
    "none with 3 active", "none with 4 active",
];

/// What lent lists of every room must meet.
pub const ROOMS: &[&str] = &[
    "listed in exact room", "listed with room left", "listed 0 in no room", "none with room", "none without room",
    "none in no room", "refused 16 by one entry", "refused 16 by more", "refused 16 in no room", "refused 1",
    "refused 2", "refused 4",
];

/// The room that a lent list has for the moves that are needed.
pub fn room_situations(needed: usize, room: usize, answer: &ListAnswer) -> Vec<&'static str> {
    let found = [
        (ListAnswer::Listed(needed), room == needed, "listed in exact room"),
        (ListAnswer::Listed(needed), room > needed, "listed with room left"),
        (ListAnswer::Listed(0), room == 0, "listed 0 in no room"),
        (ListAnswer::None, room >= needed, "none with room"),
        (ListAnswer::None, room < needed, "none without room"),
        (ListAnswer::None, room == 0, "none in no room"),
        (ListAnswer::Refused(16), room + 1 == needed, "refused 16 by one entry"),
        (ListAnswer::Refused(16), room + 1 < needed, "refused 16 by more"),
        (ListAnswer::Refused(16), room == 0, "refused 16 in no room"),
        (ListAnswer::Refused(1), true, "refused 1"),
        (ListAnswer::Refused(2), true, "refused 2"),
        (ListAnswer::Refused(4), true, "refused 4"),
    ];
    let fitting = found.into_iter().filter(|(wanted, holds, _)| wanted == answer && *holds);
    fitting.map(|(_, _, name)| name).collect()
}

/// The image of a running store, by the moves that it needs and the answer to a list with room for them.
pub fn move_list_situations(image: &[u8], control: &Control, moves: &[Move], answer: &ListAnswer) -> Vec<String> {
    let (word, mut names) = match answer {
        ListAnswer::Listed(0) => ("listed 0", of_nothing_to_move(image, control)),
        ListAnswer::Listed(_) => ("listed", of_moves(control, moves)),
        ListAnswer::None => ("none", of_locks(image, control, moves)),
        ListAnswer::Refused(_) => return Vec::new(),
    };
    names.extend(beside_the_moves(image, control, moves));
    let active = control.placements.len();
    let mut found: Vec<String> = names.into_iter().map(|name| format!("{word}{name}")).collect();
    found.push(format!("{word} with {active} active"));
    found
}

fn is_site(control: &Control, from: &Move) -> bool {
    sites(control.newest(), from.block.into()).contains(&from.card.into())
}

fn met(names: &[(&'static str, bool)]) -> Vec<&'static str> {
    names.iter().filter(|(_, holds)| *holds).map(|(name, _)| *name).collect()
}

fn of_nothing_to_move(image: &[u8], control: &Control) -> Vec<&'static str> {
    let any = (0..BLOCKS).any(|block| holding(image, control, block) != 0);
    vec![if any { ", blocks in place" } else { ", no blocks" }]
}

fn of_moves(control: &Control, moves: &[Move]) -> Vec<&'static str> {
    let newest = control.newest();
    let kinds = [Placement::is_chained, Placement::is_by_rails, Placement::is_by_table];
    let active = kinds.map(|kind| control.placements.iter().any(kind));
    met(&[
        (", many", moves.len() >= MANY),
        (", a stray sends", moves.iter().any(|from| !is_site(control, from))),
        (", a site sends", moves.iter().any(|from| is_site(control, from))),
        (", two strays of one block", moves.windows(2).any(|pair| pair[0].block == pair[1].block)),
        (", newest by the old choice", newest.is_chained()),
        (", newest by rails", newest.is_by_rails()),
        (", newest by table", newest.is_by_table()),
        (", by rails over a table", newest.is_by_rails() && active[2]),
        (", active of all kinds", active == [true; 3]),
    ])
}

/// What locks the moves.
fn of_locks(image: &[u8], control: &Control, moves: &[Move]) -> Vec<&'static str> {
    let mut refused = moves.iter().filter(|from| locked(image, from.card.into(), from.block.into()));
    let by_site = refused.clone().any(|from| is_site(control, from));
    met(&[(" by a site", by_site), (" by a stray", refused.any(|from| !is_site(control, from)))])
}

/// Copies that do not matter to the moves.
fn beside_the_moves(image: &[u8], control: &Control, moves: &[Move]) -> Vec<&'static str> {
    let moved = |block: usize| moves.iter().any(|from| usize::from(from.block) == block);
    let sent = |card: usize, block: usize| moves.contains(&Move { card: card as u8, block: block as u8 });
    let (mut in_place, mut beside_strays, mut idle) = (false, false, false);
    for card in 0..CARDS {
        let works = has(control.working, card);
        for block in held_blocks(image, card) {
            idle |= !works;
            if works && locked(image, card, block) && !sent(card, block) {
                in_place |= !moved(block);
                beside_strays |= moved(block);
            }
        }
    }
    met(&[
        (", locked where it need not move", in_place),
        (", a locked site beside strays", beside_strays),
        (", held by a card that does not work", idle),
    ])
}
