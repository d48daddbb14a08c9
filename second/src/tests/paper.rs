//! The paper's worked cases.

use crate::bits::bytes_from_words;
use crate::cu::{convert, program};
use crate::font::{read, strike_row};
use crate::label::{measure, paint, Call, Pen};
use crate::panel::Shape;
use crate::refusal::Refused;
use crate::sheet::{fresh, gather, Sheet};

const CU: [u16; 17] = [
    0x0003, 0x0001, //
    0x0041, 0x0004, 0x2000, 0x5000, 0x0000, //
    0x0042, 0x0000, 0x0000, 0x8000, 0x8000, //
    0x0044, 0x0002, 0x0000, 0x0000, 0x0000,
];

/// The small font, of C1.
pub(super) const FONT: [u16; 27] = [
    0x9000, 0x0041, 0x0044, 0x0004, 0xFFFF, 0xFFFF, 0x0004, 0x0003, //
    0x000E, 0x0002, 0x0001, 0x0000, 0x0001, //
    0x4F00, 0xBF00, 0x1F00, //
    0x0000, 0x0003, 0x0004, 0x0004, 0x0004, 0x0008, //
    0x0104, 0x0000, 0xFFFF, 0x0102, 0x0004,
];

/// The small panel: a strip has 12 dots.
pub(super) const SHAPE: Shape = Shape {
    words_per_row: 8,
    rows: 3,
    strip_width: 4,
};

fn call(label: &[u8]) -> Call {
    Call {
        shape: SHAPE,
        strip: 31,
        x: 1,
        y: 2,
        mode: 0,
        label: label.to_vec(),
    }
}

/// An all-zero panel with these words in it.
fn panel_with(words: &[(usize, u16)]) -> Vec<u16> {
    let mut panel = vec![0; 24];
    for &(place, word) in words {
        panel[place] = word;
    }
    panel
}

/// The reply and the panel of a call on an all-zero panel.
fn painted(call: &Call) -> (Result<Pen, Refused>, Vec<u16>) {
    let mut panel = vec![0; 24];
    let reply = paint(&FONT, call, &mut panel);
    (reply, panel)
}

fn sheet<'a>(keep: &'a mut [u16], flip: &'a mut [u16]) -> Sheet<'a> {
    Sheet { keep, flip }
}

fn pen(x: i64, substitutes: i64) -> Result<Pen, Refused> {
    Ok(Pen { x, substitutes })
}

#[test]
fn c1_the_file_written() {
    assert_eq!(program(&bytes_from_words(&CU)), Ok(FONT.to_vec()));
    let mut output = [0xEEEE; 30];
    assert_eq!(convert(&CU, &mut output), Ok(27));
    assert_eq!(output[..27], FONT);
    assert_eq!(output[27..], [0xEEEE; 3]);
    assert!(read(&FONT).is_ok());
}

#[test]
fn c2_two_characters() {
    let expected = panel_with(&[(7, 0x0002), (15, 0x000D), (23, 0x0008)]);
    assert_eq!(painted(&call(&[66, 65])), (pen(5, 0), expected));
    assert_eq!(measure(&FONT, 1, &[66, 65]), pen(5, 0));
}

#[test]
fn c3_strip_32() {
    let refused = Call {
        strip: 32,
        ..call(&[66, 65])
    };
    assert_eq!(painted(&refused), (Err(Refused(9)), vec![0; 24]));
}

#[test]
fn c4_a_code_that_does_not_exist() {
    let expected = panel_with(&[(7, 0x000F), (15, 0x000F), (23, 0x000F)]);
    assert_eq!(painted(&call(&[67])), (pen(5, 1), expected));
}

#[test]
fn c5_the_right_edge_of_the_strip() {
    let right = Call {
        x: 3,
        ..call(&[65])
    };
    assert_eq!(painted(&right), (pen(7, 0), panel_with(&[(15, 0x0001)])));
}

#[test]
fn c6_left_of_the_strip() {
    let left = Call {
        x: -3,
        strip: 0,
        ..call(&[65])
    };
    assert_eq!(painted(&left), (pen(1, 0), vec![0; 24]));
}

#[test]
fn c7_inverted_twice() {
    let twice = Call {
        mode: 2,
        ..call(&[66, 66])
    };
    assert_eq!(painted(&twice), (pen(1, 0), vec![0; 24]));
}

#[test]
fn c8_no_codes() {
    assert_eq!(painted(&call(&[])), (pen(1, 0), vec![0; 24]));
}

#[test]
fn c9_the_empty_character() {
    assert_eq!(painted(&call(&[68])), (pen(3, 0), vec![0; 24]));
}

#[test]
fn c10_paint_then_erase_on_a_sheet() {
    let (mut keep, mut flip) = (vec![0x1234; 24], vec![0x5678; 24]);
    assert_eq!(fresh(SHAPE, sheet(&mut keep, &mut flip)), Ok(()));
    for mode in [0, 1] {
        let call = Call {
            mode,
            ..call(&[66])
        };
        let reply = gather(&FONT, &call, sheet(&mut keep, &mut flip));
        assert_eq!(reply, pen(1, 0));
    }
    let mut expected = vec![0xFFFF; 24];
    (expected[15], expected[23]) = (0xFFF7, 0xFFF7);
    assert_eq!(keep, expected);
    assert_eq!(flip, vec![0; 24]);
}

#[test]
fn the_strip_is_refused_before_the_mode() {
    let both = Call {
        strip: 32,
        mode: 3,
        ..call(&[66])
    };
    assert_eq!(painted(&both).0, Err(Refused(9)));
}

#[test]
fn limits_of_x() {
    let at = |x| Call { x, ..call(&[65]) };
    assert_eq!(painted(&at(1023)), (pen(1027, 0), vec![0; 24]));
    assert_eq!(painted(&at(1024)).0, Err(Refused(10)));
    assert_eq!(measure(&FONT, 1023, &[65]), pen(1027, 0));
    assert_eq!(measure(&FONT, 1024, &[65]), Err(Refused(10)));
}

#[test]
fn limits_of_the_label() {
    assert_eq!(painted(&call(&[66; 64])).0, pen(1, 0));
    assert_eq!(painted(&call(&[66; 65])).0, Err(Refused(11)));
    assert_eq!(measure(&FONT, 1, &[66; 65]), Err(Refused(11)));
}

#[test]
fn strips_too_wide_for_the_row() {
    let wide = Call {
        shape: Shape {
            strip_width: 5,
            ..SHAPE
        },
        ..call(&[66])
    };
    assert_eq!(painted(&wide).0, Err(Refused(8)));
}

#[test]
fn an_empty_cu_list() {
    let mut output = [0xEEEE; 30];
    assert_eq!(convert(&[3, 1], &mut output), Err(Refused(23)));
    assert_eq!(output, [0xEEEE; 30]);
}

#[test]
fn rows_of_the_strike() {
    assert_eq!(strike_row(&FONT, 0, 1), [0xBF00]);
    assert_eq!(strike_row(&FONT, 0, 2), [0x1F00]);
    assert!(strike_row(&FONT, 0, 3).is_empty());
    assert!(strike_row(&FONT, 1, 0).is_empty());
    assert!(strike_row(&FONT[..26], 0, 0).is_empty());
}

#[test]
fn the_program_tests_its_size_before_odd_bytes() {
    assert_eq!(program(&[0; 65_537]), Err(Refused(21)));
    assert_eq!(program(&[0; 65_535]), Err(Refused(14)));
    assert_eq!(program(&[0; 65_536]), Err(Refused(20)));
}
