//! The answers of a case. An archive and the model give the same and leave the same, or the figures mean nothing.

use crate::cases::Case;
use crate::sides::{Lent, Side, MODEL};
use model::converter::shortened;
use model::image::{CONTROL, LENGTH, OLDEST_LENGTH};
use nolpigat::Answer;
use std::collections::BTreeSet;

/// The word of an answer's code, or the whole answer where it tells more.
fn word(code: u32) -> String {
    match Answer::from(code) {
        Answer::Value(_) => "value".to_string(),
        Answer::Load(_) => "load".to_string(),
        answer => answer.to_string(),
    }
}

/// Each answer once, by an archive beside the model.
pub fn compared(archive: Side, case: &Case) -> String {
    let place = format!("{} {}, {}", case.state, case.call, archive.name);
    let mut image = case.image_of(archive).unwrap_or_else(|| panic!("{place}: it lacks the call"));
    let (mut model, mut lent) = (case.image.clone(), Lent::default());
    let mut words = BTreeSet::new();
    for asked in &case.calls {
        let wanted = (MODEL.perform)(&mut model, &mut lent, asked);
        let found = (archive.perform)(&mut image, &mut lent, asked);
        assert_eq!(found, wanted, "{place}: {asked:?}");
        assert!(lent.same(), "{place}: the lists differ");
        words.insert(word(wanted));
    }
    // An older side has no serial and no stamps; one without tables differs in the marks too.
    let same = match archive.length() {
        LENGTH => image == model,
        OLDEST_LENGTH => image[CONTROL..] == shortened(&model, OLDEST_LENGTH)[CONTROL..],
        length => image == shortened(&model, length),
    };
    assert!(same, "{place}: the images differ");
    words.into_iter().collect::<Vec<_>>().join(", ")
}
