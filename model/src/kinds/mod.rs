//! Random command files of several kinds.

mod arguments;
mod maker;
mod plans;
mod profiles;
mod special;
mod uses;

pub use maker::Maker;

use crate::commands::COMMAND_BYTES;
use crate::edition::Edition;

#[derive(Clone, Copy, Debug, PartialEq, Eq)]
pub enum Kind {
    Mixed,
    Reorganise,
    Failures,
    Conflicts,
    Deletes,
    Edges,
    Noise,
    Flips,
    Long,
    Refusals,
    Pairs,
    Sweep,
}

pub const KINDS: [(&str, Kind); 12] = [
    ("mixed", Kind::Mixed),
    ("reorganise", Kind::Reorganise),
    ("failures", Kind::Failures),
    ("conflicts", Kind::Conflicts),
    ("deletes", Kind::Deletes),
    ("edges", Kind::Edges),
    ("noise", Kind::Noise),
    ("flips", Kind::Flips),
    ("long", Kind::Long),
    ("refusals", Kind::Refusals),
    ("pairs", Kind::Pairs),
    ("sweep", Kind::Sweep),
];

pub fn kind(name: &str) -> Option<Kind> {
    KINDS.iter().find(|(known, _)| *known == name).map(|(_, kind)| *kind)
}

/// The names of all kinds, with spaces between.
pub fn names() -> String {
    KINDS.map(|(name, _)| name).join(" ")
}

/// The next commands of the maker.
fn commands_of(maker: &mut Maker, commands: usize) -> Vec<u8> {
    let mut file = Vec::with_capacity((commands + 1) * COMMAND_BYTES);
    for _ in 0..commands {
        file.extend(maker.next_command());
    }
    file
}

/// A whole command file. Noise ends within a command.
pub fn generate(kind: Kind, seed: u64, commands: usize) -> Vec<u8> {
    let mut maker = Maker::new(kind, seed);
    let mut file = commands_of(&mut maker, commands);
    if kind == Kind::Noise {
        file.extend(maker.part_of_a_command());
    }
    file
}

/// Commands of an earlier edition, which leave values pending, the lines of a table that is then placed where the
/// edition has tables, the image after that, and today's commands, which go on from there and use the records first.
pub struct Older {
    pub earlier: Vec<u8>,
    pub lines: Vec<u8>,
    pub image: Vec<u8>,
    pub commands: Vec<u8>,
}

pub fn generate_older(edition: Edition, kind: Kind, seed: u64, earlier: usize, commands: usize) -> Older {
    let mut maker = Maker::by(edition, kind, seed);
    let mut earlier = commands_of(&mut maker, earlier);
    let more = maker.leave_pending();
    earlier.extend(commands_of(&mut maker, more));
    let lines = if edition.has_tables() { maker.place_any_table() } else { Vec::new() };
    let image = maker.image().to_vec();
    maker.go_on_by(Edition::Today);
    maker.use_all();
    Older { earlier, lines, image, commands: commands_of(&mut maker, commands) }
}
