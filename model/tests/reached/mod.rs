//! Images that calls reach.

use model::calls::perform_by;
use model::edition::Edition;
use model::{Answer, Call};

/// An image after these calls, none of them refused.
pub fn after(edition: Edition, calls: &[Call]) -> Vec<u8> {
    let mut image = vec![0; edition.length()];
    make(edition, &mut image, calls);
    image
}

/// Makes calls of which none is refused.
pub fn make(edition: Edition, image: &mut [u8], calls: &[Call]) {
    for call in calls {
        let answer = perform_by(edition, image, call);
        assert!(!matches!(answer, Answer::Refused(_)), "{call:?} {answer}");
    }
}
