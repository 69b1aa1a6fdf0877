//! What the programs have in common: images and calls, times, instructions and the command line.

pub mod answers;
#[cfg(feature = "before")]
mod before;
pub mod cases;
pub mod counting;
pub mod program;
pub mod sides;
pub mod timing;
