//! Placing by a plant's table.

use crate::{done, ffi, Block, Card, Refusal};
use core::mem::size_of_val;

/// A line of a table: the blocks from the first to the last lie on these two cards, the first of which is the first
/// site. It is four bytes, as in the archive's lines.
#[derive(Clone, Copy, Debug, Default, PartialEq, Eq, Hash)]
#[repr(C)]
pub struct Line {
    /// The first block of the range.
    pub first: Block,
    /// The last block of the range, not below the first.
    pub last: Block,
    /// Two different working cards.
    pub cards: [Card; 2],
}

/// The cards that the lines name become the newest placement, in which each block lies on the two cards of its line.
/// Each block is in exactly one line; the lines may come in any order, and their cards may be the newest mask again.
/// This call has no command.
///
/// Refused: [`Range`](Refusal::Range) also for more than [`MOST_LINES`](crate::MOST_LINES) lines and for a first block
/// above the last; [`Placement`](Refusal::Placement) if a line's cards are equal or one does not work;
/// [`Gap`](Refusal::Gap) if a block is in no line, so also without lines; [`Overlap`](Refusal::Overlap) if one is in
/// two; then [`Active`](Refusal::Active) if three or more placements are active, and then
/// [`Serials`](Refusal::Serials), as [`place`](crate::place).
///
/// ```
/// use nolpigat::*;
///
/// fn main() -> Result<(), Refusal> {
///     let mut image = [0; IMAGE_SIZE];
///     start(&mut image, Mask(0xFF))?;
///     // Blocks 0 to 9 on cards 6 and 1, the others on cards 0 and 5.
///     let low = Line { first: Block(0), last: Block(9), cards: [Card(6), Card(1)] };
///     let high = Line { first: Block(10), last: Block(63), cards: [Card(0), Card(5)] };
///     assert_eq!(place_by_table(&mut image, &[low]), Err(Refusal::Gap));
///     place_by_table(&mut image, &[low, high])?;
///     assert_eq!(placement(&image, 1)?, Some(Mask(0xC6)));
///     begin(&mut image, Tran(1), Card(1))?;
///     store(&mut image, Tran(1), Rec(16), 4660)?; // block 2
///     assert_eq!(source(&image, Tran(1), Rec(16))?, Some(Card(6)));
///     Ok(())
/// }
/// ```
pub fn place_by_table(image: &mut [u8], lines: &[Line]) -> Result<(), Refusal> {
    let (at, length) = (lines.as_ptr().cast(), size_of_val(lines));
    // SAFETY: each pointer and its length are those of one slice, borrowed for the whole call, the image exclusively. A
    // line is four single bytes without padding. The function accepts every length and contents and keeps no pointer.
    done(unsafe { ffi::nolpigat_place_by_table(image.as_mut_ptr(), image.len(), at, length) })
}
