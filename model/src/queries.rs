//! Questions that are no calls: what the control part and the holders of a record's block tell. Nothing changes.

use crate::calls::{perform, Answer, Call};
use crate::control::{Control, TRANSACTIONS};
use crate::image::{place_of, LENGTH};
use crate::sites::holders;
use std::fmt;

/// Numbers of active placements: 0 to 3.
const MOST_ACTIVE: u8 = 4;

#[derive(Clone, Copy, Debug, PartialEq, Eq)]
pub enum Query {
    Stopped,
    PlacementCount,
    /// 0 is the oldest.
    Placement(u8),
    Working,
    Failed,
    /// Of a transaction.
    Home(u8),
    FreeTransaction,
    Source { transaction: u8, record: u16 },
    Holders { transaction: u8, record: u16 },
}

#[derive(Clone, Copy, Debug, PartialEq, Eq)]
pub enum Told {
    Number(u8),
    None,
    Refused(u8),
}

impl fmt::Display for Told {
    fn fmt(&self, f: &mut fmt::Formatter) -> fmt::Result {
        match self {
            Told::Number(number) => write!(f, "number {number}"),
            Told::None => f.write_str("none"),
            Told::Refused(number) => write!(f, "refused {number}"),
        }
    }
}

/// The number, or none.
fn told(number: Option<u8>) -> Told {
    number.map_or(Told::None, Told::Number)
}

/// What the control part tells. A stopped store tells too.
fn of_control(control: &Control, query: Query) -> Told {
    match query {
        Query::Stopped => Told::Number(control.stopped.into()),
        Query::PlacementCount => Told::Number(control.placements.len() as u8),
        Query::Placement(place) if place >= MOST_ACTIVE => Told::Refused(3),
        Query::Placement(place) => told(control.placements.get(place as usize).map(|placement| placement.mask)),
        Query::Working => Told::Number(control.working),
        Query::Failed => Told::Number(control.failed),
        Query::Home(transaction) if !(1..=TRANSACTIONS).contains(&transaction.into()) => Told::Refused(3),
        Query::Home(transaction) => told(control.homes[transaction as usize]),
        Query::FreeTransaction => {
            let free = (1..=TRANSACTIONS).find(|transaction| control.homes[*transaction].is_none());
            Told::Number(free.unwrap_or(0) as u8)
        }
        Query::Source { .. } | Query::Holders { .. } => unreachable!("asked of a record"),
    }
}

/// The holders of the record's block, or why a get of the record is refused.
fn holders_of(image: &[u8], transaction: u8, record: u16) -> Result<Vec<usize>, Told> {
    if let Answer::Refused(number) = perform(&mut image.to_vec(), &Call::Get { transaction, record }) {
        return Err(Told::Refused(number));
    }
    let control = Control::read(image).expect("a get that is not refused");
    Ok(holders(image, &control, place_of(record).0))
}

pub fn ask(image: &[u8], query: Query) -> Told {
    match query {
        Query::Source { transaction, record } => holders_of(image, transaction, record)
            .map_or_else(|refused| refused, |holders| told(holders.first().map(|card| *card as u8))),
        Query::Holders { transaction, record } => holders_of(image, transaction, record)
            .map_or_else(|refused| refused, |holders| Told::Number(holders.len() as u8)),
        _ if image.len() != LENGTH => Told::Refused(1),
        _ => Control::read(image).map_or(Told::Refused(2), |control| of_control(&control, query)),
    }
}
