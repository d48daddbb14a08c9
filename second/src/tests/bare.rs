//! Fonts whose dummy has no columns: plain ones, in which nothing stands in for a code that
//! does not exist, and a kerned one, in which the pen still moves.

use super::generated::generated;
use crate::bits::{bytes_from_words, words_from_bytes};
use crate::desk::measure_label;
use crate::font::{read, strike_row};
use crate::generate::font_files::{good_font, MadeFont};
use crate::generate::label_calls::{good_call, good_slice, small_shape};
use crate::generate::random::Random;
use crate::generate::{preview_inputs, Kind};
use crate::label::{measure, paint, Call, Pen};
use crate::list::{parse, Command, Register};
use crate::panel::Shape;
use crate::preview::preview;
use crate::refusal::{number_of, Refused};

/// The codes 97 to 99, of which 98 has no picture. The bits behind column 5 belong to no picture.
const BARE: [u16; 17] = [
    0x8000, 0x0061, 0x0063, 0x0003, //
    0x000D, 0x0002, 0x0001, 0x0000, 0x0001, //
    0xCC80, 0x7B00, 0xB780, //
    0x0000, 0x0003, 0x0003, 0x0005, 0x0005,
];

const SHAPE: Shape = Shape {
    words_per_row: 8,
    rows: 3,
    strip_width: 4,
};

fn call(mode: i64, label: &[u8]) -> Call {
    Call {
        shape: SHAPE,
        strip: 0,
        x: 1,
        y: 2,
        mode,
        label: label.to_vec(),
    }
}

fn pen(x: i64, substitutes: i64) -> Result<Pen, Refused> {
    Ok(Pen { x, substitutes })
}

#[test]
fn it_is_read() {
    assert!(read(&BARE).is_ok());
    assert_eq!(strike_row(&BARE, 0, 2), [0xB780]);
}

#[test]
fn one_column_past_the_raster_is_refused_all_the_same() {
    let mut font = BARE;
    font[15..].copy_from_slice(&[16, 16]);
    assert!(read(&font).is_ok());
    font[15..].copy_from_slice(&[17, 17]);
    assert_eq!(number_of(&read(&font)), 6);
}

#[test]
fn a_label_of_absent_codes_alters_nothing() {
    for mode in 0..3 {
        for label in [&[98][..], &[96], &[100, 255], &[98, 98, 0]] {
            let mut panel = vec![0xA5A5; 24];
            let reply = paint(&BARE, &call(mode, label), &mut panel);
            assert_eq!(reply, pen(1, label.len() as i64), "{label:?}");
            assert_eq!(panel, [0xA5A5; 24], "{label:?}");
        }
    }
}

#[test]
fn absent_codes_are_measured() {
    assert_eq!(measure(&BARE, -3, &[98, 96, 100, 97]), pen(0, 3));
    let file = bytes_from_words(&BARE);
    assert_eq!(measure_label(&file, -3, &[98, 96, 100, 97]), pen(0, 3));
    assert_eq!(measure(&BARE, 1_023, &[98; 64]), pen(1_023, 64));
}

/// Code 64, offset 0 and spacing 3, and a dummy of no columns, offset 1 and spacing 4.
const KERNED: [u16; 20] = [
    0x9000, 0x0040, 0x0040, 0x0003, 0x0001, 0x0000, 0x0002, 0x0002, //
    0x000A, 0x0002, 0x0000, 0x0000, 0x0001, //
    0xB000, 0x6000, //
    0x0000, 0x0002, 0x0002, //
    0x0003, 0x0104,
];

#[test]
fn a_kerned_dummy_without_columns_moves_the_pen_by_its_spacing() {
    assert_eq!(measure(&KERNED, 0, &[65, 64]), pen(7, 1));
    let mut panel = vec![0xA5A5; 24];
    assert_eq!(paint(&KERNED, &call(2, &[65]), &mut panel), pen(5, 1));
    assert_eq!(panel, [0xA5A5; 24]);
}

/// In a plain strike the last two words are the dummy's edges.
fn is_bare(font: &[u16]) -> bool {
    match font {
        [format, .., left, right] => format & 0x5000 == 0 && left == right,
        _ => false,
    }
}

fn bare_font(random: &mut Random) -> MadeFont {
    loop {
        let font = good_font(random);
        if is_bare(&font.words) {
            return font;
        }
    }
}

fn exists(font: &[u16], code: u8) -> bool {
    let font = read(font).unwrap();
    !font.glyph(i64::from(code)).substitute
}

/// A label is painted as it is without the codes that do not exist, and each of them is counted.
#[test]
fn absent_codes_among_others_only_count() {
    let mut random = Random::from_seed(11);
    let mut absent_ones = 0;
    for _ in 0..2_000 {
        let font = bare_font(&mut random);
        let shape = small_shape(&mut random);
        let with = good_call(&mut random, shape, &font);
        let mut without = with.clone();
        without.label.retain(|&code| exists(&font.words, code));
        let absent = (with.label.len() - without.label.len()) as i64;
        let mut panel = good_slice(&mut random, shape);
        let mut other = panel.clone();
        let reply = paint(&font.words, &with, &mut panel).unwrap();
        let shorter = paint(&font.words, &without, &mut other).unwrap();
        assert_eq!(panel, other);
        assert_eq!(reply.x, shorter.x);
        assert_eq!((reply.substitutes, shorter.substitutes), (absent, 0));
        absent_ones += absent;
    }
    assert!(absent_ones > 2_000);
}

/// How many label calls of a list have such a font and a code that it does not have.
fn blank_substitutes(kind: Kind) -> usize {
    let (mut font, mut blank) = (Vec::new(), 0);
    for line in generated(kind, 1980, 1_500).lines() {
        let (label, x) = match parse(line).unwrap() {
            Some(Command::SetWords(Register::Font, words)) => {
                font = words;
                continue;
            }
            Some(Command::SetFile(bytes)) => {
                font = words_from_bytes(&bytes).unwrap_or_default();
                continue;
            }
            Some(Command::Measure { x, label } | Command::DeskMeasure { x, label }) => (label, x),
            Some(Command::Paint(call) | Command::Gather(_, call)) => (call.label, call.x),
            _ => continue,
        };
        let counted = measure(&font, x, &label).map_or(0, |pen| pen.substitutes);
        blank += usize::from(counted > 0 && is_bare(&font));
    }
    blank
}

#[test]
fn lists_ask_for_absent_codes_of_such_fonts() {
    for kind in [Kind::Fonts, Kind::Labels, Kind::Sheets, Kind::Desk] {
        let blank = blank_substitutes(kind);
        assert!(blank > 10, "{kind:?}: {blank}");
    }
}

#[test]
fn previews_ask_for_absent_codes_of_such_fonts() {
    let said = preview_inputs(1980, 240, &[]).filter(|input| {
        let font = input.font.as_deref().and_then(words_from_bytes);
        let errors = preview(input.font.as_deref(), input.shape, &input.lines).errors;
        font.is_some_and(|words| is_bare(&words)) && errors.contains("shown as the dummy")
    });
    assert!(said.count() > 10);
}
