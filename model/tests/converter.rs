//! The converters of change requests A.6 and A.7: images of earlier editions are lengthened.

mod reached;

use model::calls::{perform_by, started};
use model::clauses::{broken_control, Clause, CLAUSES};
use model::control::{put_form, stamp, Control, SERIAL};
use model::converter::{convert_21024, convert_21216, converted, lengthen, shortened};
use model::edition::Edition;
use model::image::*;
use model::images::random_image;
use model::random::Random;
use model::returns::return_card;
use model::table::place_by_table_by;
use model::Answer;
use model::Call::*;
use reached::after;

const OLDEST: [Edition; 3] = [Edition::Base, Edition::Rails, Edition::BelowWire];

/// A converter with the edition whose form it asks for, and the length that it fills.
struct Converter {
    convert: fn(&[u8], &mut [u8]) -> Answer,
    edition: Edition,
    length: usize,
}

const CONVERTERS: [Converter; 2] = [
    Converter { convert: convert_21024, edition: Edition::BelowWire, length: OLDER_LENGTH },
    Converter { convert: convert_21216, edition: Edition::ByTables, length: LENGTH },
];

impl Converter {
    /// The answer, and whether the lent image stays.
    fn into_lent(&self, older: &[u8], length: usize) -> (Answer, bool) {
        let lent = vec![0x5A; length];
        let mut image = lent.clone();
        let answer = (self.convert)(older, &mut image);
        (answer, image == lent)
    }

    fn written(&self) -> Answer {
        Answer::Written(self.length as u16)
    }
}

#[test]
fn of_21024_bytes_stay_and_zeros_follow() {
    for edition in OLDEST {
        let store = Store { transaction: 1, record: 9, value: 7 };
        let older = after(edition, &[Start { mask: 0xE0 }, Begin { transaction: 1, home: 0 }, store]);
        let mut image = vec![0x5A; OLDER_LENGTH];
        assert_eq!(convert_21024(&older, &mut image), Answer::Written(21_216));
        assert!(image[..OLDEST_LENGTH] == older && image[OLDEST_LENGTH..] == [0; 192]);
        assert_eq!(Control::read_by(Edition::ByTables, &image), Control::read_by(edition, &older));
    }
}

/// Two placements, the newer one by a table; card 3 failed, card 4 neither works nor is failed.
fn with_table() -> Vec<u8> {
    let mut older = after(Edition::ByTables, &[Start { mask: 0xF0 }, Begin { transaction: 1, home: 0 }]);
    perform_by(Edition::ByTables, &mut older, &Store { transaction: 1, record: 511, value: 7 });
    let lines = [0, 63, 2, 0];
    assert_eq!(place_by_table_by(Edition::ByTables, &mut older, &lines), Answer::Ok);
    assert_eq!(perform_by(Edition::ByTables, &mut older, &Fail { card: 3 }), Answer::Unplaced);
    older
}

#[test]
fn of_21216_all_bytes_come_to_their_places() {
    let mut older = with_table();
    let mut random = Random::new(1);
    for card in [3, 4] {
        let table = Layout::of(&older).table_at(card);
        random.fill(&mut older[table]);
    }
    let mut image = vec![0x5A; LENGTH];
    assert_eq!(convert_21216(&older, &mut image), Answer::Written(21_248));
    assert!(image[..23] == older[..23] && image[23..26] == [0, 0, 4] && image[26..32] == older[26..32]);
    for card in 0..CARDS {
        assert!(image[table_at(card)][..BLOCKS_BYTES] == older[32 + 2_624 * card..][..2_624], "{card}");
        let wanted = if card < 3 { [0, 0, 4, 0xA0] } else { [0; 4] };
        assert_eq!(image[stamp_at(card)], wanted, "{card}");
    }
    assert!(image[21_056..] == older[21_024..] && image[21_056 + 48..21_056 + 96] != [0; 48]);
    let before = Control::read_by(Edition::ByTables, &older).unwrap();
    assert_eq!(Control::read(&image), Some(Control { serial: 4, ..before }));
}

/// Four active placements have a serial each, so the converted serial fits.
#[test]
fn four_active_are_whole() {
    let calls = [Start { mask: 0xFF }, Place { mask: 0xFE }, Place { mask: 0xFF }, Fail { card: 7 }];
    for edition in [Edition::Rails, Edition::ByTables] {
        let image = converted(&after(edition, &calls));
        let control = Control::read(&image).expect("the form is whole");
        assert_eq!((control.placements.len(), control.serial), (4, 4));
        assert_eq!(image[stamp_at(0)], stamp(4, 0xFE));
        assert_eq!(image[stamp_at(7)], [0; 4]);
    }
}

/// It stays stopped: the cards that failed before have no stamp, so that only a start helps.
#[test]
fn a_stopped_store_is_converted() {
    for (_, edition) in Edition::NAMES {
        let older = after(edition, &[Start { mask: 0xC0 }, Fail { card: 0 }]);
        assert_eq!(Control::read_by(edition, &older).map(|control| control.stopped), Some(true));
        let mut image = converted(&older);
        assert_eq!(perform_by(Edition::Today, &mut image, &State), Answer::Refused(4));
        assert_eq!(return_card(&mut image, 0), Answer::Refused(19));
        assert_eq!(perform_by(Edition::Today, &mut image, &Fail { card: 1 }), Answer::Stopped);
        assert_eq!(return_card(&mut image, 1), Answer::Ok);
        assert_eq!(perform_by(Edition::Today, &mut image, &State), Answer::Refused(4));
    }
}

#[test]
fn lengths_come_first() {
    for converter in CONVERTERS {
        let good = after(converter.edition, &[Start { mask: 0xE0 }]);
        let zero = vec![0; good.len()];
        for older in [&good, &zero] {
            for length in [0, OLDEST_LENGTH, OLDER_LENGTH, LENGTH, LENGTH + 1, 2 * LENGTH] {
                if length != converter.length {
                    assert_eq!(converter.into_lent(older, length), (Answer::Refused(1), true));
                }
            }
            for length in [converter.length - 1, converter.length + 1] {
                assert_eq!(converter.into_lent(older, length), (Answer::Refused(1), true));
            }
        }
        let today = started(0xE0);
        for older in [&good[1..], &zero[1..], &today[..], &[]] {
            assert_eq!(converter.into_lent(older, converter.length), (Answer::Refused(1), true));
        }
        assert_eq!(converter.into_lent(&zero, converter.length), (Answer::Refused(2), true));
        assert_eq!(converter.into_lent(&good, converter.length), (converter.written(), false));
    }
}

/// What a converter added is what the shorter image lacks.
#[test]
fn shortened_again() {
    for (_, edition) in Edition::NAMES {
        let older = after(edition, &[Start { mask: 0xE0 }, Begin { transaction: 1, home: 0 }, Place { mask: 0xC0 }]);
        assert!(shortened(&converted(&older), older.len()) == older);
    }
    let older = with_table();
    assert!(shortened(&converted(&older), OLDER_LENGTH) == older);
}

/// In one step or two, whichever length it has.
#[test]
fn either_length_goes_to_today() {
    for (_, edition) in Edition::NAMES {
        let older = after(edition, &[Start { mask: 0xE0 }]);
        let image = lengthen(&older, Edition::Today).unwrap();
        let mut wanted = started(0xE0);
        wanted[25] = 4;
        if edition == Edition::Base {
            wanted[7] = 0;
        }
        for card in 0..3 {
            wanted[stamp_at(card)].copy_from_slice(&[0, 0, 4, 0xE0]);
        }
        assert!(image == wanted, "{edition:?}");
        assert_eq!(lengthen(&vec![0; edition.length()], Edition::Today), Err(Answer::Refused(2)));
    }
}

/// The low bits of byte 7 are zero in the oldest form, and bytes 23 to 31 in both older ones.
#[test]
fn by_the_older_form() {
    let good = after(Edition::BelowWire, &[Start { mask: 0xE0 }]);
    for bit in 0..4 {
        let mut older = good.clone();
        older[7] |= 1 << bit;
        assert_eq!(CONVERTERS[0].into_lent(&older, OLDER_LENGTH), (Answer::Refused(2), true));
        older[7] &= 0x0F;
        assert_eq!(CONVERTERS[0].into_lent(&older, OLDER_LENGTH), (Answer::Refused(2), true));
    }
    for converter in CONVERTERS {
        for at in 23..32 {
            let mut older = after(converter.edition, &[Start { mask: 0xE0 }]);
            older[at] = 1;
            assert_eq!(converter.into_lent(&older, converter.length), (Answer::Refused(2), true));
        }
    }
}

/// The clause speaks of bytes that the older image does not have, or of the serial, which is zero there.
fn of_later_bytes(clause: Clause, edition: Edition) -> bool {
    let kept = matches!(clause, Clause::KeptWithoutTable | Clause::KeptBeyondCount);
    matches!(clause, Clause::SerialBelowCount | Clause::SerialTooHigh) || kept && !edition.has_tables()
}

#[test]
fn each_clause_of_the_older_form() {
    let mut random = Random::new(1);
    for Converter { convert, edition, length } in CONVERTERS {
        for clause in CLAUSES {
            for _ in 0..50 {
                let mut form = broken_control(&mut random, clause);
                form[SERIAL].fill(0);
                let mut older = vec![0; edition.length()];
                put_form(&mut older, &form);
                let whole = of_later_bytes(clause, edition) && (edition.has_tables() || older[7] & 0x0F == 0);
                let answer = convert(&older, &mut vec![0; length]);
                assert_eq!(answer == Answer::Written(length as u16), whole, "{clause:?}");
            }
        }
    }
}

/// What is converted is whole by today's form, with serial 4, and a broken one is not.
#[test]
fn random_images() {
    let mut random = Random::new(2);
    for edition in [Edition::BelowWire, Edition::ByTables] {
        let (mut written, mut refused) = (0, 0);
        for _ in 0..2_000 {
            let older = shortened(&random_image(&mut random), edition.length());
            let by_old = Control::read_by(edition, &older);
            match lengthen(&older, Edition::Today) {
                Ok(image) => {
                    let wanted = by_old.map(|control| Control { serial: 4, ..control });
                    assert!(wanted.is_some() && Control::read(&image) == wanted);
                    written += 1;
                }
                Err(answer) => {
                    assert_eq!((answer, by_old), (Answer::Refused(2), None));
                    refused += 1;
                }
            }
        }
        assert!(written > 200 && refused > 200, "{written} {refused}");
    }
}
