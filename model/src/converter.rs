//! The converters: an image of an earlier length is lengthened, step by step.

use crate::calls::Answer;
use crate::control::{Control, SERIAL};
use crate::edition::Edition;
use crate::image::{Layout, BLOCKS_BYTES, CARDS, CONTROL, KEPT, LENGTH, OLDER_LENGTH, OLDEST_LENGTH};

/// The serial of a converted store: not below the count of its placements, whatever that is.
pub const CONVERTED_SERIAL: u32 = 4;

/// The converter of A.6: what is kept for placements comes behind the card tables, all zero.
/// Fills the lent image from the older one. A refusal leaves it as lent.
pub fn convert_21024(older: &[u8], image: &mut [u8]) -> Answer {
    if older.len() != OLDEST_LENGTH || image.len() != OLDER_LENGTH {
        return Answer::Refused(1);
    }
    if Control::read_by(Edition::BelowWire, older).is_none() {
        return Answer::Refused(2);
    }
    image[..OLDEST_LENGTH].copy_from_slice(older);
    image[OLDEST_LENGTH..].fill(0);
    Answer::Written(OLDER_LENGTH as u16)
}

/// The converter of A.7: the control part gets a serial, and each card table a stamp, which is zero where the card
/// does not work.
pub fn convert_21216(older: &[u8], image: &mut [u8]) -> Answer {
    if older.len() != OLDER_LENGTH || image.len() != LENGTH {
        return Answer::Refused(1);
    }
    let Some(mut control) = Control::read_by(Edition::ByTables, older) else { return Answer::Refused(2) };
    control.serial = CONVERTED_SERIAL;
    let from = Layout::of(older);
    image.fill(0);
    image[..CONTROL].copy_from_slice(&older[..CONTROL]);
    image[SERIAL].copy_from_slice(&control.stamp()[..SERIAL.len()]);
    for card in 0..CARDS {
        image[Layout::TODAY.table_at(card)][..BLOCKS_BYTES].copy_from_slice(&older[from.table_at(card)]);
    }
    image[KEPT].copy_from_slice(&older[from.kept()]);
    control.write_stamps(image);
    Answer::Written(LENGTH as u16)
}

/// The next longer image, or the refusal.
fn step(older: &[u8], length: usize) -> Result<Vec<u8>, Answer> {
    let mut image = vec![0; length];
    let answer = if length == LENGTH { convert_21216(older, &mut image) } else { convert_21024(older, &mut image) };
    if let Answer::Refused(_) = answer { Err(answer) } else { Ok(image) }
}

/// The image of an edition's length from one of an earlier or the same length, by both converters if need be; else the
/// refusal.
pub fn lengthen(older: &[u8], edition: Edition) -> Result<Vec<u8>, Answer> {
    let mut image = older.to_vec();
    for length in [OLDER_LENGTH, LENGTH] {
        if image.len() < length && length <= edition.length() {
            image = step(&image, length)?;
        }
    }
    Ok(image)
}

/// An image of today as an earlier edition of this length would have it, for those who look at older ones: without its
/// serial and its stamps, and without what is kept for placements where nothing lies behind the tables.
pub fn shortened(image: &[u8], length: usize) -> Vec<u8> {
    let mut older = vec![0; length];
    let to = Layout::of(&older);
    older[..CONTROL].copy_from_slice(&image[..CONTROL]);
    older[SERIAL].fill(0);
    for card in 0..CARDS {
        older[to.table_at(card)].copy_from_slice(&image[Layout::TODAY.table_at(card)][..BLOCKS_BYTES]);
    }
    let kept = to.kept();
    older[kept.clone()].copy_from_slice(&image[KEPT][..kept.len()]);
    older
}

/// Today's image of an older one whose form is whole.
pub fn converted(older: &[u8]) -> Vec<u8> {
    lengthen(older, Edition::Today).expect("the form is whole")
}
