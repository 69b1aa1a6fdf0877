//! Comparison of the archive with the model: the answer, and every byte of the image after each call.

pub mod archive;
pub mod broken_wire;
pub mod cases;
pub mod conversions;
pub mod lent;
pub mod lists;
pub mod move_lists;
pub mod pair;
pub mod protection;
pub mod questions;
pub mod requests;
pub mod returns;
pub mod run;
pub mod single;
pub mod tables;
