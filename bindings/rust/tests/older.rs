//! Images that earlier versions left, as stored: they are converted, and refusals leave the lent image.

use nolpigat::*;

/// What versions 1.x left, and then version 2.
const LEFT: [&[u8]; 4] = [
    include_bytes!("../../../tests/older/base/image"),
    include_bytes!("../../../tests/older/rails/image"),
    include_bytes!("../../../tests/older/below-wire/image"),
    include_bytes!("../../../tests/older/by-tables/image"),
];

const OF_VERSION_1: [&[u8]; 3] = [LEFT[0], LEFT[1], LEFT[2]];

type Converter = fn(&[u8], &mut [u8]) -> Result<usize, Refusal>;

fn assert_refused(convert: Converter, older: &[u8], length: usize, refusal: Refusal) {
    let mut image = vec![0xEE; length];
    assert_eq!(convert(older, &mut image), Err(refusal));
    assert!(image.iter().all(|byte| *byte == 0xEE), "a refused call changed the lent image");
}

fn of_version_2(older: &[u8]) -> Vec<u8> {
    let mut image = vec![0xEE; VERSION_2_IMAGE_SIZE];
    assert_eq!(convert_21024(older, &mut image), Ok(VERSION_2_IMAGE_SIZE));
    image
}

#[test]
fn of_version_1_bytes_stay_and_zeros_follow() {
    for older in OF_VERSION_1 {
        let image = of_version_2(older);
        assert!(image[..VERSION_1_IMAGE_SIZE] == *older);
        assert!(image[VERSION_1_IMAGE_SIZE..].iter().all(|byte| *byte == 0));
        assert_eq!(state(&image), Err(Refusal::Length));
    }
}

#[test]
fn of_version_2_serial_and_stamps_come_in() {
    let older = LEFT[3];
    let mut image = vec![0xEE; IMAGE_SIZE];
    assert_eq!(convert_21216(older, &mut image), Ok(IMAGE_SIZE));
    assert!(image[..23] == older[..23] && image[23..26] == [0, 0, 4] && image[26..32] == older[26..32]);
    for card in 0..8 {
        let (table, stamp) = image[32 + 2628 * card..][..2628].split_at(2624);
        assert!(table == &older[32 + 2624 * card..][..2624]);
        let works = older[5] & 0x80 >> card != 0;
        let newest = older[usize::from(older[0] >> 4 & 7)];
        assert_eq!(stamp, if works { [0, 0, 4, newest] } else { [0; 4] });
    }
    assert!(image[IMAGE_SIZE - 192..] == older[VERSION_2_IMAGE_SIZE - 192..]);
    assert!(state(&image).is_ok());
}

/// From either length to this version's, as by the converters one after the other.
#[test]
fn from_either_length() {
    for older in LEFT {
        assert_eq!(state(older), Err(Refusal::Length));
        let mut image = vec![0xEE; IMAGE_SIZE];
        assert_eq!(convert(older, &mut image), Ok(IMAGE_SIZE));
        assert!(state(&image).is_ok());
        let between = if older.len() == VERSION_1_IMAGE_SIZE { of_version_2(older) } else { older.to_vec() };
        let mut wanted = vec![0; IMAGE_SIZE];
        assert_eq!(convert_21216(&between, &mut wanted), Ok(IMAGE_SIZE));
        assert!(image == wanted);
    }
}

#[test]
fn a_stopped_store_is_converted() {
    for older in LEFT {
        let mut older = older.to_vec();
        older[0] |= 0x80;
        older[8..23].fill(0);
        let mut image = vec![0; IMAGE_SIZE];
        assert_eq!(convert(&older, &mut image), Ok(IMAGE_SIZE));
        assert_eq!(stopped(&image), Ok(true));
    }
}

#[test]
fn refusals_leave_the_lent_image() {
    let cases: [(Converter, &[u8], usize); 3] = [
        (convert_21024, LEFT[0], VERSION_2_IMAGE_SIZE),
        (convert_21216, LEFT[3], IMAGE_SIZE),
        (convert, LEFT[1], IMAGE_SIZE),
    ];
    for (converter, older, size) in cases {
        assert_refused(converter, &older[1..], size, Refusal::Length);
        for length in [0, VERSION_1_IMAGE_SIZE, size - 1, size + 1] {
            assert_refused(converter, older, length, Refusal::Length);
        }
        let mut with_serial = older.to_vec();
        with_serial[25] = 1;
        assert_refused(converter, &with_serial, size, Refusal::ControlForm);
        // Lengths come before the form.
        let zeros = vec![0; older.len()];
        assert_refused(converter, &zeros, size, Refusal::ControlForm);
        assert_refused(converter, &zeros, size - 1, Refusal::Length);
        assert_refused(converter, &vec![0; IMAGE_SIZE], size, Refusal::Length);
    }
}
