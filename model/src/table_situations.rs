//! What a plant's table makes special about an answered call, by name.

use crate::calls::{Answer, Call};
use crate::control::{count, has, Control};
use crate::image::{place_of, BLOCKS};
use crate::rail_situations::name;
use crate::sites::{sites, Placement};
use crate::table::{read_lines, Line, LINE_BYTES, MOST_LINES};

/// Situations that lists with placings by table reach.
pub const WITH_TABLES: &[&str] = &[
    "get, a site by a table alone", "store, a site by a table alone", "delete, a site by a table alone",
    "move, a site by a table alone", "get with all kinds active", "store with all kinds active",
    "delete with all kinds active", "commit with all kinds active", "rollback with all kinds active",
    "move with all kinds active", "fail with all kinds active", "get with four active of all kinds",
    "store with four active of all kinds", "move with four active of all kinds", "place of a table's mask again",
    "settle moves a table from place 2", "settle moves a table from place 3", "settle keeps a table, none retired",
    "settle retires a table", "settle retires a table, the newest is one", "fail places over a table",
    "fail places the fourth over a table", "unplaced with a table newest", "stopped with a table newest",
];

/// What placings by table must meet, on single images and in lists. The word 'too' names a later refusal that applies
/// as well.
pub const PLACINGS: &[&str] = &[
    "ok, 1 line", "ok, 64 lines", "ok, other lines", "ok with 1 active", "ok with 2 active",
    "ok, the newest mask again over rails", "ok, the newest mask again over a table", "ok, two cards named",
    "refused 3, not whole lines", "refused 3, 65 lines", "refused 3, more lines", "refused 3, a block above 63",
    "refused 3, a card above 7", "refused 3, first above last", "refused 3, stopped too", "refused 4",
    "refused 4, no lines", "refused 4, unfit cards too", "refused 9, equal cards", "refused 9, a failed card",
    "refused 9, a card neither working nor failed", "refused 9, a gap too", "refused 9, an overlap too",
    "refused 9, three active too", "refused 17, no lines", "refused 17, a gap alone", "refused 17, an overlap too",
    "refused 17, three active too", "refused 18", "refused 18, three active too", "refused 10 with 3 active",
    "refused 10 with 4 active",
];

fn met(names: &[(&str, bool)]) -> Vec<String> {
    names.iter().filter(|(_, holds)| *holds).map(|(name, _)| name.to_string()).collect()
}

/// The names of a call, by the control part before the call of a running store.
pub fn table_situations(control: &Control, call: &Call, answer: &Answer) -> Vec<String> {
    if !control.placements.iter().any(Placement::is_by_table) {
        return Vec::new();
    }
    let mut found = of_block(control, call, answer);
    found.extend(of_kinds(control, call, answer));
    found.extend(match (*call, *answer) {
        (Call::Place { mask }, Answer::Ok) => {
            met(&[("place of a table's mask again", control.newest().is_by_table() && mask == control.newest().mask)])
        }
        (Call::Settle, Answer::Retired(retired)) => of_settle(control, retired),
        (Call::Fail { .. }, _) => of_fail(control, answer),
        _ => Vec::new(),
    });
    found
}

/// The table's pair is not that of the other choices over the same cards.
fn differs(placement: &Placement, block: usize) -> bool {
    let mask = placement.mask;
    let others = [Placement::chained(mask), Placement::by_rails(mask)];
    others.into_iter().all(|other| sites(other, block) != sites(*placement, block))
}

fn of_block(control: &Control, call: &Call, answer: &Answer) -> Vec<String> {
    let block = match *call {
        Call::Get { record, .. } | Call::Store { record, .. } | Call::Delete { record, .. } => place_of(record).0,
        Call::Move { block, .. } => block as usize,
        _ => return Vec::new(),
    };
    let by_table = control.placements.iter().any(|p| p.is_by_table() && differs(p, block));
    let name = name(call, answer).filter(|_| by_table);
    name.map(|name| format!("{name}, a site by a table alone")).into_iter().collect()
}

/// Placements of all three kinds are active.
pub fn has_all_kinds(control: &Control) -> bool {
    let kinds = [Placement::is_chained, Placement::is_by_rails, Placement::is_by_table];
    kinds.into_iter().all(|kind| control.placements.iter().any(kind))
}

fn of_kinds(control: &Control, call: &Call, answer: &Answer) -> Vec<String> {
    let Some(name) = name(call, answer).filter(|_| has_all_kinds(control)) else { return Vec::new() };
    let mut found = vec![format!("{name} with all kinds active")];
    if control.placements.len() == 4 {
        found.push(format!("{name} with four active of all kinds"));
    }
    found
}

fn of_settle(control: &Control, retired: u8) -> Vec<String> {
    let (newest, older) = control.placements.split_last().expect("a placement is active");
    let older = older.iter().any(Placement::is_by_table);
    let mut found = met(&[
        ("settle keeps a table, none retired", newest.is_by_table() && retired == 0),
        ("settle retires a table", older),
        ("settle retires a table, the newest is one", older && newest.is_by_table()),
    ]);
    if newest.is_by_table() && retired > 0 {
        found.push(format!("settle moves a table from place {}", retired + 1));
    }
    found
}

fn of_fail(control: &Control, answer: &Answer) -> Vec<String> {
    let newest = control.newest().is_by_table();
    let placed = matches!(answer, Answer::Placed(_));
    met(&[
        ("fail places over a table", placed && newest),
        ("fail places the fourth over a table", placed && newest && control.placements.len() == 3),
        ("unplaced with a table newest", *answer == Answer::Unplaced && newest),
        ("stopped with a table newest", *answer == Answer::Stopped && newest),
    ])
}

/// The names of a placing by table, by the control part before it.
pub fn placing_situations(control: &Control, bytes: &[u8], answer: &Answer) -> Vec<String> {
    let lines = read_lines(bytes).unwrap_or_default();
    match answer {
        Answer::Ok => of_placed(control, &lines),
        Answer::Refused(3) => of_range(control, bytes),
        Answer::Refused(4) => {
            let (none, unfit) = (bytes.is_empty(), unfit(control, &lines));
            met(&[("refused 4", true), ("refused 4, no lines", none), ("refused 4, unfit cards too", unfit)])
        }
        Answer::Refused(9) => of_cards(control, &lines),
        Answer::Refused(17) => met(&[
            ("refused 17, no lines", lines.is_empty()),
            ("refused 17, a gap alone", !overlaps(&lines) && !lines.is_empty()),
            ("refused 17, an overlap too", overlaps(&lines)),
            ("refused 17, three active too", control.placements.len() >= 3),
        ]),
        Answer::Refused(18) => {
            met(&[("refused 18", true), ("refused 18, three active too", control.placements.len() >= 3)])
        }
        Answer::Refused(10) => vec![format!("refused 10 with {} active", control.placements.len())],
        _ => Vec::new(),
    }
}

fn times(lines: &[Line], block: usize) -> usize {
    lines.iter().filter(|line| (line.first as usize..=line.last as usize).contains(&block)).count()
}

fn gaps(lines: &[Line]) -> bool {
    (0..BLOCKS).any(|block| times(lines, block) == 0)
}

fn overlaps(lines: &[Line]) -> bool {
    (0..BLOCKS).any(|block| times(lines, block) > 1)
}

fn unfit(control: &Control, lines: &[Line]) -> bool {
    let idle = |line: &Line| line.cards.iter().any(|card| !has(control.working, (*card).into()));
    lines.iter().any(|line| line.cards[0] == line.cards[1] || idle(line))
}

fn of_placed(control: &Control, lines: &[Line]) -> Vec<String> {
    let mask = lines.iter().flat_map(|line| line.cards).fold(0u8, |mask, card| mask | 0x80 >> card);
    let newest = control.newest();
    let mut found = met(&[
        ("ok, 1 line", lines.len() == 1),
        ("ok, 64 lines", lines.len() == MOST_LINES),
        ("ok, other lines", lines.len() > 1 && lines.len() < MOST_LINES),
        ("ok, the newest mask again over rails", mask == newest.mask && newest.is_by_rails()),
        ("ok, the newest mask again over a table", mask == newest.mask && newest.is_by_table()),
        ("ok, two cards named", count(mask) == 2),
    ]);
    found.push(format!("ok with {} active", control.placements.len()));
    found
}

fn of_range(control: &Control, bytes: &[u8]) -> Vec<String> {
    let lines = || bytes.chunks_exact(LINE_BYTES);
    met(&[
        ("refused 3, not whole lines", bytes.len() % LINE_BYTES != 0),
        ("refused 3, 65 lines", bytes.len() == (MOST_LINES + 1) * LINE_BYTES),
        ("refused 3, more lines", bytes.len() > (MOST_LINES + 1) * LINE_BYTES),
        ("refused 3, a block above 63", lines().any(|line| line[0] > 63 || line[1] > 63)),
        ("refused 3, a card above 7", lines().any(|line| line[2] > 7 || line[3] > 7)),
        ("refused 3, first above last", lines().any(|line| line[0] > line[1] && line[0] < 64)),
        ("refused 3, stopped too", control.stopped),
    ])
}

fn of_cards(control: &Control, lines: &[Line]) -> Vec<String> {
    let named = |test: &dyn Fn(usize) -> bool| lines.iter().flat_map(|line| line.cards).any(|card| test(card.into()));
    met(&[
        ("refused 9, equal cards", lines.iter().any(|line| line.cards[0] == line.cards[1])),
        ("refused 9, a failed card", named(&|card| has(control.failed, card))),
        ("refused 9, a card neither working nor failed", named(&|card| !has(control.failed | control.working, card))),
        ("refused 9, a gap too", gaps(lines)),
        ("refused 9, an overlap too", overlaps(lines)),
        ("refused 9, three active too", control.placements.len() >= 3),
    ])
}
