//! A second, plain implementation of the record store (docs/RULES.md).
//! Command files are run by it and by the proved program, and the listings are compared.

pub mod at_failing;
pub mod broken_wire_situations;
pub mod calls;
pub mod clauses;
pub mod commands;
pub mod control;
pub mod converter;
pub mod edition;
pub mod image;
pub mod images;
pub mod kinds;
pub mod listing;
pub mod lists;
pub mod move_list;
pub mod move_list_images;
pub mod move_list_situations;
pub mod plain;
pub mod protection_situations;
pub mod queries;
pub mod rail_situations;
pub mod random;
pub mod return_situations;
pub mod returns;
pub mod serial_situations;
pub mod sites;
pub mod situations;
pub mod table;
pub mod table_situations;
pub mod tables;
pub mod tally;

pub use calls::{perform, Answer, Call};
pub use commands::{read_command, write_command};
