//! Codes of answers: every kind, codes that are no answer's, and the words.

use nolpigat::{Answer, Mask, Refusal};
use std::collections::HashSet;

/// Each line of the stored texts: a code and its words, or a refusal's number and its sentence.
const TEXTS: &str = include_str!("../../../tests/texts.txt");

/// The answer of a stored code.
fn answer(code: &str) -> Answer {
    Answer::from(u32::from_str_radix(code, 16).expect("a code in hex digits"))
}

#[test]
fn every_kind() {
    let expected = [
        (0x0_0000, Answer::Ok),
        (0x1_0000, Answer::Value(0)),
        (0x1_FFFF, Answer::Value(65535)),
        (0x2_0000, Answer::Absent),
        (0x3_000C, Answer::Placed(Mask(0x0C))),
        (0x3_00FF, Answer::Placed(Mask(0xFF))),
        (0x4_0000, Answer::Unplaced),
        (0x5_0000, Answer::Stopped),
        (0x6_0002, Answer::Copies(2)),
        (0x7_0003, Answer::Retired(3)),
        (0x8_0000, Answer::Protected),
        (0x9_0000, Answer::Unprotected),
        (0xA_0200, Answer::Load(512)),
        (0xB_0200, Answer::Listed(512)),
        (0xC_0000, Answer::None),
        (0xD_00E0, Answer::Number(0xE0)),
        (0xF_0001, Answer::Refused(Refusal::Length)),
        (0xE_5300, Answer::Written(21_248)),
        (0xF_0010, Answer::Refused(Refusal::List)),
        (0xF_0011, Answer::Refused(Refusal::Gap)),
        (0xF_0012, Answer::Refused(Refusal::Overlap)),
        (0xF_0013, Answer::Refused(Refusal::Stale)),
        (0xF_0014, Answer::Refused(Refusal::Serials)),
        (0xF_0015, Answer::Refused(Refusal::Unknown(0xF_0015))),
    ];
    for (code, answer) in expected {
        assert_eq!(Answer::from(code), answer);
    }
}

/// The words of codes and the sentences of refusals are the header's.
#[test]
fn texts_of_the_header() {
    let (mut codes, mut refusals) = (0, 0);
    for line in TEXTS.lines() {
        if let Some((number, text)) = line.strip_prefix("refusal ").and_then(|line| line.split_once(": ")) {
            let Answer::Refused(refusal) = Answer::from(0xF_0000 + number.parse::<u32>().expect("a number")) else {
                panic!("refusal {number} is none");
            };
            assert_eq!(refusal.to_string(), text);
            assert_eq!(refusal.number().to_string(), number);
            refusals += 1;
        } else {
            let (code, words) = line.split_once(' ').expect("a code and its words");
            assert_eq!(answer(code).to_string(), words);
            codes += 1;
        }
    }
    assert_eq!((codes, refusals), (37, 22));
}

#[test]
fn no_answers_code() {
    // A number where the kind has none, a number too wide, the kinds that are none's.
    let with_number = [0x0_0001, 0x2_0001, 0x4_FFFF, 0x5_0001, 0x8_0001, 0x9_0001, 0xC_0001];
    let too_wide = [0x3_0100, 0x6_0100, 0x7_0100];
    let kinds = [0x10_0000, u32::MAX];
    for code in with_number.into_iter().chain(too_wide).chain(kinds) {
        assert_eq!(Answer::from(code), Answer::Unknown(code));
    }
}

#[test]
fn number_of_an_unknown_code() {
    assert_eq!(Refusal::Unknown(0xF_0015).number(), 21);
    assert_eq!(Refusal::Unknown(0x1_0011).number(), 0);
}

#[test]
fn a_code_for_each_answer() {
    let codes = 0..0x11_0000;
    let answers: HashSet<Answer> = codes.clone().map(Answer::from).collect();
    assert_eq!(answers.len(), codes.len());
}
