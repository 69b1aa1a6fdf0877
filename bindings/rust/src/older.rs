//! Images that earlier versions left.

use crate::{ffi, taken, Answer, Refusal, IMAGE_SIZE, VERSION_1_IMAGE_SIZE, VERSION_2_IMAGE_SIZE};

/// The bytes that a conversion wrote.
fn written(code: u32) -> Result<usize, Refusal> {
    taken(code, |answer| if let Answer::Written(bytes) = answer { Some(bytes.into()) } else { None })
}

/// An image that versions 1.x left, of [`VERSION_1_IMAGE_SIZE`] bytes, becomes one of versions 2.x: the lent one, of
/// [`VERSION_2_IMAGE_SIZE`] bytes and any contents, becomes its bytes and zeros behind them. A stopped store is
/// converted too. The bytes that were written are counted, all of the lent image. [`convert_21216`] goes on from there.
///
/// Refused: [`Length`](Refusal::Length) if one of the two lengths is not such; [`ControlForm`](Refusal::ControlForm) if
/// the older image's control form is broken by the rules of its version, so also if it is zero. The lent image then
/// stays.
pub fn convert_21024(older: &[u8], image: &mut [u8]) -> Result<usize, Refusal> {
    // SAFETY: each pointer and its length are those of one slice, borrowed for the whole call, the lent image
    // exclusively. The function accepts every length and contents and keeps no pointer.
    written(unsafe { ffi::nolpigat_convert_21024(older.as_ptr(), older.len(), image.as_mut_ptr(), image.len()) })
}

/// An image that versions 2.x left, of [`VERSION_2_IMAGE_SIZE`] bytes, becomes one of this version: the lent one, of
/// [`IMAGE_SIZE`] bytes and any contents, gets its bytes, serial 4, and the stamp of the newest
/// placement for each working card. A stopped store is converted too, and stays stopped until a start: no card that had
/// failed before has a stamp that a return takes. The bytes that were written are counted, all of the image.
///
/// Refused: as [`convert_21024`].
pub fn convert_21216(older: &[u8], image: &mut [u8]) -> Result<usize, Refusal> {
    // SAFETY: each pointer and its length are those of one slice, borrowed for the whole call, the lent image
    // exclusively. The function accepts every length and contents and keeps no pointer.
    written(unsafe { ffi::nolpigat_convert_21216(older.as_ptr(), older.len(), image.as_mut_ptr(), image.len()) })
}

/// An image that an earlier version left, whichever of the two lengths it has, becomes one of this version, by one
/// converter or by both. One of versions 1.x needs [`VERSION_2_IMAGE_SIZE`] bytes of stack for the step between.
///
/// Refused: as [`convert_21216`]. The lent image then stays.
///
/// ```
/// use nolpigat::*;
///
/// fn main() -> Result<(), Refusal> {
///     let mut older = [0; VERSION_1_IMAGE_SIZE];
///     older[..8].copy_from_slice(&[0x10, 0xE0, 0, 0, 0, 0xE0, 0, 0x80]); // cards 0, 1 and 2, as a start left them
///     let mut image = [0; IMAGE_SIZE];
///     assert_eq!(state(&older), Err(Refusal::Length));
///     assert_eq!(convert(&older, &mut image)?, IMAGE_SIZE);
///     assert_eq!(state(&image)?, Protection::Protected);
///     Ok(())
/// }
/// ```
pub fn convert(older: &[u8], image: &mut [u8]) -> Result<usize, Refusal> {
    // Another length of the lent image is refused there, before the older control form is looked at.
    if older.len() != VERSION_1_IMAGE_SIZE || image.len() != IMAGE_SIZE {
        return convert_21216(older, image);
    }
    let mut between = [0; VERSION_2_IMAGE_SIZE];
    convert_21024(older, &mut between)?;
    convert_21216(&between, image)
}
