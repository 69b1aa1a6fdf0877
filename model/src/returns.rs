//! The return of a failed card to a stopped store, change request A.7.

use crate::calls::Answer;
use crate::control::{has, Control};
use crate::image::*;
use crate::sites::members;

/// The stamp of the card's table is that of the newest placement, which names the card.
pub fn is_current(image: &[u8], control: &Control, card: usize) -> bool {
    image[stamp_at(card)] == control.stamp() && has(control.newest().mask, card)
}

/// The failed cards that a return takes.
pub fn returnable(image: &[u8], control: &Control) -> Vec<usize> {
    members(control.failed).into_iter().filter(|card| is_current(image, control, *card)).collect()
}

/// Returns of cards, with their tables as they are, set the stopped store running.
pub fn can_resume(image: &[u8], control: &Control) -> bool {
    let mut after = control.clone();
    for card in returnable(image, control) {
        after.take_back(card);
    }
    after.can_run()
}

/// The card works again, with its table as the image has it. The store runs if it then can.
pub fn return_card(image: &mut [u8], card: u8) -> Answer {
    if image.len() != LENGTH {
        return Answer::Refused(1);
    }
    let Some(mut control) = Control::read(image) else { return Answer::Refused(2) };
    let card = card as usize;
    if card >= CARDS {
        return Answer::Refused(3);
    }
    if !control.stopped || !has(control.failed, card) {
        return Answer::Refused(8);
    }
    if !is_current(image, &control, card) {
        return Answer::Refused(19);
    }
    free_slots(image, card);
    control.take_back(card);
    control.stopped = !control.can_run();
    control.write(image);
    Answer::Ok
}

/// What was locked on the card is rolled back, whoever locked it: the stop closed every transaction.
fn free_slots(image: &mut [u8], card: usize) {
    for block in held_blocks(image, card) {
        for place in 0..PLACES {
            if read_slot(image, card, block, place).lock != 0 {
                change_slot(image, card, block, place, Slot::drop_pending);
            }
        }
    }
}
