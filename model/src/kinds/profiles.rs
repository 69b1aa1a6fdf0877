//! What sets the kinds apart: weights of the operations, chances and sizes.

use super::Kind;

/// Chances are in a thousand.
pub(super) struct Profile {
    /// Weights of the operations 0 to 14.
    pub weights: [usize; 15],
    /// A call with careless arguments.
    pub wild: usize,
    /// A malformed command.
    pub malformed: usize,
    /// How many records are in use; 0 is all of them.
    pub pool: usize,
    /// Least and most members of a start's mask.
    pub members: (usize, usize),
    /// Most members of a place's mask.
    pub placed: usize,
    /// With more transactions open than this, few are begun.
    pub open: usize,
    /// A whole reorganisation is planned.
    pub reorganise: usize,
    /// Many records are stored and committed, or read again.
    pub batch: usize,
    /// A fail avoids the stop where it can.
    pub gentle: usize,
    /// A failure at three active placements is planned.
    pub four: usize,
    /// A further call before the first start, and after a stop.
    pub outside: usize,
    /// A fail of a working card after a stop.
    pub marks: usize,
}

//                           start beg get sto del com rol fit wit pla fai mov set sta loa
const MIXED: [usize; 15] = [2, 60, 200, 200, 60, 70, 30, 30, 20, 30, 15, 120, 40, 20, 40];
const REORGANISE: [usize; 15] = [1, 50, 120, 120, 30, 80, 20, 30, 20, 50, 2, 250, 60, 20, 60];
const FAILURES: [usize; 15] = [1, 60, 150, 120, 30, 50, 20, 90, 20, 70, 70, 120, 50, 25, 50];
const CONFLICTS: [usize; 15] = [1, 120, 230, 250, 120, 60, 50, 3, 2, 5, 3, 40, 5, 3, 20];
const DELETES: [usize; 15] = [1, 60, 200, 170, 260, 90, 60, 5, 3, 8, 4, 40, 10, 3, 60];
const EDGES: [usize; 15] = [20, 60, 120, 120, 60, 50, 30, 60, 40, 60, 30, 80, 40, 20, 60];
const LONG: [usize; 15] = [0, 90, 350, 280, 50, 110, 20, 4, 1, 1, 1, 10, 3, 5, 20];
const PAIRS: [usize; 15] = [4, 60, 160, 140, 40, 70, 20, 60, 50, 60, 30, 150, 60, 20, 50];
const SWEEP: [usize; 15] = [0, 30, 250, 60, 20, 40, 10, 20, 5, 10, 6, 60, 20, 10, 60];

const COMMON: Profile = Profile {
    weights: MIXED,
    wild: 60,
    malformed: 10,
    pool: 60,
    members: (2, 8),
    placed: 8,
    open: 4,
    reorganise: 8,
    batch: 5,
    gentle: 800,
    four: 3,
    outside: 400,
    marks: 0,
};

pub(super) fn profile(kind: Kind) -> Profile {
    match kind {
        Kind::Mixed => COMMON,
        Kind::Reorganise => Profile {
            weights: REORGANISE, wild: 10, malformed: 2, pool: 120, members: (3, 6),
            reorganise: 15, gentle: 1000, four: 0, ..COMMON
        },
        Kind::Failures => Profile {
            weights: FAILURES, wild: 15, malformed: 2, pool: 40, members: (3, 8),
            reorganise: 20, batch: 10, gentle: 900, four: 12, outside: 600, marks: 600, ..COMMON
        },
        Kind::Conflicts => Profile {
            weights: CONFLICTS, wild: 20, malformed: 3, pool: 4, open: 15, reorganise: 3, four: 0, ..COMMON
        },
        Kind::Deletes => Profile {
            weights: DELETES, wild: 15, malformed: 3, pool: 20, reorganise: 5, four: 0, ..COMMON
        },
        Kind::Edges => Profile { weights: EDGES, malformed: 30, pool: 30, members: (2, 3), outside: 700, ..COMMON },
        Kind::Noise | Kind::Flips => Profile { wild: 200, malformed: 100, pool: 30, ..COMMON },
        Kind::Long => Profile {
            weights: LONG, wild: 4, malformed: 1, pool: 0, members: (4, 8),
            reorganise: 2, batch: 12, gentle: 990, four: 0, ..COMMON
        },
        Kind::Refusals => Profile { wild: 100, malformed: 20, pool: 12, members: (2, 6), outside: 850, ..COMMON },
        Kind::Pairs => Profile {
            weights: PAIRS, wild: 20, malformed: 3, pool: 30, members: (2, 3), placed: 3,
            reorganise: 25, gentle: 850, ..COMMON
        },
        Kind::Sweep => Profile {
            weights: SWEEP, wild: 5, malformed: 1, pool: 0, members: (3, 8),
            reorganise: 12, batch: 12, gentle: 950, four: 2, ..COMMON
        },
    }
}
