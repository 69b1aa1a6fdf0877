//! The way back after a stop.

use crate::{done, ffi, Card, Refusal};

/// A failed card goes back to a stopped store, with its table as the image now has it. It is taken if it is current: its
/// stamp is that of the newest placement, which names the card. What was locked on it is rolled back. The store runs
/// again as soon as all members of the newest placement work and no active placement has two failed or fewer than two
/// working members; [`stopped`](crate::stopped) tells. A return says nothing of that. This call has no command.
///
/// Every committed record is then as it was at the stop, provided that the card's bytes are those at its failing.
///
/// Refused: [`Card`](Refusal::Card) if the store runs or the card is not failed; [`Stale`](Refusal::Stale) if the card
/// is not current. It is never refused with [`Stopped`](Refusal::Stopped).
///
/// ```
/// use nolpigat::*;
///
/// fn main() -> Result<(), Refusal> {
///     let mut image = [0; IMAGE_SIZE];
///     start(&mut image, Mask(0xC0))?; // cards 0 and 1
///     begin(&mut image, Tran(1), Card(0))?;
///     store(&mut image, Tran(1), Rec(9), 4660)?;
///     commit(&mut image, Tran(1))?;
///     assert_eq!(fail(&mut image, Card(0))?, Failed::Stopped);
///     assert_eq!(fail(&mut image, Card(1))?, Failed::Stopped);
///     return_card(&mut image, Card(1))?;
///     assert!(stopped(&image)?);
///     return_card(&mut image, Card(0))?;
///     assert!(!stopped(&image)?);
///     begin(&mut image, Tran(1), Card(0))?;
///     assert_eq!(get(&image, Tran(1), Rec(9))?, Some(4660));
///     Ok(())
/// }
/// ```
pub fn return_card(image: &mut [u8], card: Card) -> Result<(), Refusal> {
    // SAFETY: the pointer and the length are those of one slice, borrowed exclusively for the whole call. The function
    // accepts every length and contents and keeps no pointer.
    done(unsafe { ffi::nolpigat_return_card(image.as_mut_ptr(), image.len(), card.0) })
}
