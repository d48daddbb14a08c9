//! Index files: shared pictures, bodies with ascents of their own, and the order of refusals.

use crate::font::{read, strike_row, Font, Glyph};
use crate::generate::font_files::{good_font, good_index, index_wrong_from, MadeFont};
use crate::generate::label_calls::{good_call, good_slice, random_label, small_shape};
use crate::generate::random::Random;
use crate::label::{measure, paint, Call, Pen};
use crate::panel::Shape;
use crate::refusal::{number_of, Refused};
use crate::sheet::{gather, Sheet};

const INDEX_BIT: u16 = 0x4000;
const KERNED_BIT: u16 = 0x1000;
const MISSING: u16 = 0x8000;

/// The codes 65 to 68: 65 and 66 share the first body's picture, 67 shows the same dots in the
/// second body, a row higher; 68 is absent. The dummy is the second body's code 1, which has no
/// columns.
const PLAIN: [u16; 30] = [
    0xC000, 0x0041, 0x0044, 0x0002, 0x0002, 0x0001, 0x0002, //
    0x0000, 0x0000, 0x0100, 0xFFFF, 0x0101, //
    0x0009, 0x0001, 0x0001, 0x0000, 0x0001, 0x8000, 0xC000, 0x0000, 0x0002, //
    0x000A, 0x0002, 0x0000, 0x0000, 0x0001, 0x8000, 0xC000, 0x0000, 0x0002,
];

/// With the last word, the second body's third pointer.
fn plain() -> Vec<u16> {
    let mut words = PLAIN.to_vec();
    words.push(2);
    words
}

const SHAPE: Shape = Shape {
    words_per_row: 8,
    rows: 3,
    strip_width: 4,
};

fn call(label: &[u8]) -> Call {
    Call {
        shape: SHAPE,
        strip: 0,
        x: 1,
        y: 2,
        mode: 0,
        label: label.to_vec(),
    }
}

fn pen(x: i64, substitutes: i64) -> Result<Pen, Refused> {
    Ok(Pen { x, substitutes })
}

/// The reply, and the first word of each row of a panel that was all zeros.
fn painted(label: &[u8]) -> (Result<Pen, Refused>, [u16; 3]) {
    let mut panel = vec![0; 24];
    let reply = paint(&plain(), &call(label), &mut panel);
    (reply, [panel[0], panel[8], panel[16]])
}

#[test]
fn shared_pictures_are_painted_alike() {
    let expected = (pen(3, 0), [0x0000, 0x4000, 0x6000]);
    assert_eq!(painted(&[65]), expected);
    assert_eq!(painted(&[66]), expected);
}

#[test]
fn each_picture_is_placed_by_the_ascent_of_its_body() {
    assert_eq!(painted(&[67]), (pen(3, 0), [0x4000, 0x6000, 0x0000]));
    assert_eq!(painted(&[65, 67]).1, [0x1000, 0x5000, 0x6000]);
}

#[test]
fn absent_codes_are_counted_and_empty_pictures_are_not() {
    assert_eq!(painted(&[68, 69]), (pen(1, 2), [0; 3]));
    let mut present = plain();
    present[10] = present[11];
    assert_eq!(measure(&present, 1, &[68, 69]), pen(1, 1));
}

#[test]
fn rows_are_those_of_the_body_named() {
    let mut words = plain();
    words[17] = 0x1234;
    words[26] = 0x5678;
    assert_eq!(strike_row(&words, 0, 0), [0x1234]);
    assert_eq!(strike_row(&words, 1, 0), [0x5678]);
    assert_eq!(strike_row(&words, 1, 1), [0xC000]);
    for (body, row) in [(0, 2), (1, 2), (2, 0), (256, 0), (4_294_967_295, 0)] {
        assert!(strike_row(&words, body, row).is_empty(), "{body} {row}");
    }
    words.push(0);
    assert!(strike_row(&words, 0, 0).is_empty());
}

/// What is drawn, without where it goes.
fn picture(glyph: &Glyph) -> (i64, i64, Vec<bool>) {
    let rows = 0..glyph.height();
    let dots = rows.flat_map(|row| (0..glyph.columns).map(move |column| (row, column)));
    let dots = dots.map(|(row, column)| glyph.dot(row, column)).collect();
    (glyph.ascent(), glyph.height(), dots)
}

/// The map entries of an accepted index, the dummy's last, with the codes that they are for.
fn map_of(font: &MadeFont) -> Vec<(i64, u16)> {
    let kerned = font.words[0] & KERNED_BIT != 0;
    let start = if kerned { 11 } else { 7 };
    (font.min..=font.max + 1)
        .zip(font.words[start..].iter().copied())
        .collect()
}

fn assert_sharing(font: &Font, map: &[(i64, u16)]) -> usize {
    let mut shared = 0;
    for &(one, entry) in map {
        for &(other, other_entry) in map {
            let (left, right) = (font.glyph(one), font.glyph(other));
            let present = !left.substitute && !right.substitute;
            if one < other && present && entry == other_entry {
                assert_eq!(picture(&left), picture(&right), "{one} {other}");
                shared += 1;
            }
        }
    }
    shared
}

#[test]
fn good_index_files_are_read_and_equal_map_entries_show_equal_dots() {
    let mut random = Random::from_seed(3);
    let mut shared = 0;
    for _ in 0..1_000 {
        let font = good_index(&mut random);
        let read = read(&font.words).unwrap_or_else(|refused| panic!("{refused:?}"));
        if font.max - font.min < 20 {
            shared += assert_sharing(&read, &map_of(&font));
        }
    }
    assert!(shared > 1_000, "{shared}");
}

/// A strike as an index of one body, whose codes are the strike's from 0 on. In the map every code
/// is named that the strike has, so that a plain one's codes without columns are absent.
fn index_of_strike(font: &MadeFont) -> Vec<u16> {
    let kerned = font.words[0] & KERNED_BIT != 0;
    let body_start = if kerned { 8 } else { 4 };
    let (before, body_and_entries) = font.words.split_at(body_start);
    let strike = read(&font.words).unwrap();
    let mut words = before.to_vec();
    words[0] |= INDEX_BIT;
    words.extend([0, 0, 1]);
    for code in font.min..=font.max + 1 {
        let is_dummy = code == font.max + 1;
        let absent = strike.glyph(code).substitute && !is_dummy;
        let place = (code - font.min) as u16;
        words.push(if absent { MISSING | place } else { place });
    }
    words.extend(body_and_entries);
    words
}

fn strike_of_few_codes(random: &mut Random) -> MadeFont {
    loop {
        let font = good_font(random);
        // With 256 codes the dummy's would be over 255 in the body.
        let fits = font.max - font.min < 255;
        if font.words[0] & INDEX_BIT == 0 && fits {
            return font;
        }
    }
}

#[test]
fn a_strike_made_an_index_of_one_body_does_all_as_before() {
    let mut random = Random::from_seed(5);
    for _ in 0..1_000 {
        let font = strike_of_few_codes(&mut random);
        let index = index_of_strike(&font);
        assert_eq!(number_of(&read(&index)), 0);
        for row in 0..=font.height {
            assert_eq!(strike_row(&index, 0, row), strike_row(&font.words, 0, row));
        }
        let label = random_label(&mut random, &font);
        assert_eq!(measure(&index, 0, &label), measure(&font.words, 0, &label));
        let shape = small_shape(&mut random);
        let call = good_call(&mut random, shape, &font);
        let slice = good_slice(&mut random, shape);
        compare_painting(&index, &font.words, &call, &slice);
        compare_gathering(&index, &font.words, &call, &slice);
    }
}

fn compare_painting(one: &[u16], other: &[u16], call: &Call, panel: &[u16]) {
    let (mut panel, mut other_panel) = (panel.to_vec(), panel.to_vec());
    let reply = paint(one, call, &mut panel);
    assert_eq!(reply, paint(other, call, &mut other_panel));
    assert_eq!(panel, other_panel);
}

fn compare_gathering(one: &[u16], other: &[u16], call: &Call, words: &[u16]) {
    let gathered = |font: &[u16]| {
        let (mut keep, mut flip) = (words.to_vec(), words.to_vec());
        let sheet = Sheet {
            keep: &mut keep,
            flip: &mut flip,
        };
        let reply = gather(font, call, sheet);
        (reply, keep, flip)
    };
    assert_eq!(gathered(one), gathered(other));
}

/// The order of the tests, for files of three bodies: all is wrong from one test on.
#[test]
fn the_first_test_that_fails_gives_the_number() {
    // Format, codes, number of bodies, FBBox, the first body, the second, the last, map, dummy.
    let expected = [2, 3, 15, 4, 4, 5, 6, 4, 5, 6, 5, 5, 6, 16, 7, 0];
    let mut random = Random::from_seed(7);
    for (first, number) in expected.into_iter().enumerate() {
        for _ in 0..200 {
            let font = index_wrong_from(&mut random, first);
            assert_eq!(number_of(&read(&font.words)), number, "{:04X?}", font.words);
        }
    }
}

/// A file that is cut anywhere is refused, by 1 as long as the words before the bodies are not all
/// there, and then by 5.
#[test]
fn a_file_that_is_cut_is_refused_for_its_length() {
    let whole = plain();
    for length in 0..whole.len() {
        let number = if length < 12 { 1 } else { 5 };
        assert_eq!(number_of(&read(&whole[..length])), number, "{length}");
    }
    assert_eq!(number_of(&read(&whole)), 0);
}
