//! Label calls, shapes and lent slices: good ones, and ways to spoil them.

use super::font_files::MadeFont;
use super::random::Random;
use crate::label::Call;
use crate::panel::Shape;

const OUTSIDE: [i64; 6] = [
    -1_025,
    1_024,
    -2_147_483_648,
    2_147_483_647,
    -65_536,
    65_536,
];
/// The most words that the register of a slice may hold.
const MOST_SLICE_WORDS: usize = 40_000;
const LARGE: [i64; 3] = [65_536, 2_147_483_648, 4_294_967_295];

/// Mostly small, so that the answers stay short.
pub fn good_shape(random: &mut Random) -> Shape {
    match random.below(40) {
        0 => shape(2, 1, 1),
        1 => shape(128, 256, 64),
        2 => shape(128, 1, 64),
        3 => shape(3, 256, 1),
        _ => small_shape(random),
    }
}

pub fn small_shape(random: &mut Random) -> Shape {
    let (words_per_row, most_rows) = match random.below(8) {
        0 => (random.between(29, 128), 2),
        1 => (random.between(2, 7), 10),
        _ => (random.between(8, 28), 6),
    };
    let widest = words_per_row / 2;
    let narrowest = if random.one_in(6) { 1 } else { widest };
    shape(
        words_per_row,
        random.between(1, most_rows),
        random.between(narrowest, widest),
    )
}

/// A shape that is refused, most of them by one number that is one past its limit.
pub fn bad_shape(random: &mut Random, good: Shape) -> Shape {
    let mut bad = good;
    let large = random.pick(&LARGE);
    match random.below(8) {
        0 => bad.words_per_row = random.pick(&[0, 129, large]),
        1 => bad.rows = random.pick(&[0, 257, large]),
        2 => bad.strip_width = random.pick(&[0, 65, large]),
        3 | 4 => bad.strip_width = good.words_per_row / 2 + 1,
        5 => bad = shape(1, good.rows, 1),
        6 => bad = shape(large, large, large),
        _ => bad = shape(130, good.rows, 65),
    }
    bad
}

fn shape(words_per_row: i64, rows: i64, strip_width: i64) -> Shape {
    Shape {
        words_per_row,
        rows,
        strip_width,
    }
}

/// A slice for a good shape, often longer than R × H; the words past it are marks that
/// must stay.
pub fn good_slice(random: &mut Random, shape: Shape) -> Vec<u16> {
    let mut slice = random_words(random, shape.words());
    match random.below(12) {
        0 => lengthen(random, &mut slice),
        1..=4 => {
            for _ in 0..random.between(1, 4) {
                slice.push(random.word());
            }
        }
        _ => (),
    }
    slice
}

/// A slice that is long enough for shapes past the limits too.
pub fn long_slice(random: &mut Random, shape: Shape) -> Vec<u16> {
    let mut slice = random_words(random, shape.words());
    lengthen(random, &mut slice);
    slice
}

fn lengthen(random: &mut Random, slice: &mut Vec<u16>) {
    let mark = random.word();
    slice.resize(MOST_SLICE_WORDS, mark);
}

/// A slice that is too short, mostly by one word.
pub fn short_slice(random: &mut Random, shape: Shape) -> Vec<u16> {
    let short_by = if random.one_in(4) { shape.words() } else { 1 };
    random_words(random, shape.words() - short_by)
}

/// Random dots throughout a short slice, and here and there in a long one.
fn random_words(random: &mut Random, count: usize) -> Vec<u16> {
    let ground = random.pick(&[0x0000, 0xFFFF, 0x5555]);
    let mut words = vec![ground; count];
    let altered = match random.below(3) {
        0 => 0,
        _ => count.min(40),
    };
    for _ in 0..altered {
        let place = random.below(count);
        words[place] = random.word();
    }
    words
}

/// A call that is accepted where its font is.
pub fn good_call(random: &mut Random, shape: Shape, font: &MadeFont) -> Call {
    Call {
        shape,
        strip: good_strip(random),
        x: good_x(random, shape.strip_width, font),
        y: good_y(random, shape, font),
        mode: random.between(0, 2),
        label: short_label(random, font),
    }
}

fn good_strip(random: &mut Random) -> i64 {
    match random.below(4) {
        0 => 0,
        1 => 31,
        _ => random.between(0, 31),
    }
}

/// Mostly such that the first picture lies in the strip or crosses an edge of it.
fn good_x(random: &mut Random, strip_width: i64, font: &MadeFont) -> i64 {
    let x = match random.below(24) {
        0 => random.pick(&[-1_024, 1_023]),
        1 => random.between(-1_024, 1_023),
        2 => random.between(-12, strip_width + 6),
        _ => random.between(-5, strip_width - 1) - font.left,
    };
    x.clamp(-1_024, 1_023)
}

/// Mostly such that some row of the pictures lies on some row of the panel.
fn good_y(random: &mut Random, shape: Shape, font: &MadeFont) -> i64 {
    let y = match random.below(24) {
        0 => random.pick(&[-1_024, 1_023]),
        1 => random.between(-1_024, 1_023),
        2 => random.between(-12, shape.rows + 12),
        _ => {
            let panel_row = random.between(0, shape.rows - 1);
            let picture_row = random.between(0, font.height.max(1) - 1);
            panel_row + font.ascent - picture_row
        }
    };
    y.clamp(-1_024, 1_023)
}

/// Any starting pen, refused ones too.
pub fn random_x(random: &mut Random, font: &MadeFont) -> i64 {
    if random.one_in(6) {
        random.pick(&OUTSIDE)
    } else {
        good_x(random, 8, font)
    }
}

/// Any label, refused ones too.
pub fn random_label(random: &mut Random, font: &MadeFont) -> Vec<u8> {
    if random.one_in(12) {
        label_too_long(random, font)
    } else {
        short_label(random, font)
    }
}

fn short_label(random: &mut Random, font: &MadeFont) -> Vec<u8> {
    let length = match random.below(20) {
        0 => 0,
        1 if font.height < 40 => 64,
        _ => random.below(6) + 1,
    };
    (0..length).map(|_| label_byte(random, font)).collect()
}

fn label_too_long(random: &mut Random, font: &MadeFont) -> Vec<u8> {
    let length = random.pick(&[65, 65, 65, 66, 256, 320]);
    vec![label_byte(random, font); length]
}

fn label_byte(random: &mut Random, font: &MadeFont) -> u8 {
    let is_usual = font.min <= font.max && font.max <= 255;
    if is_usual && !random.one_in(6) {
        random.between(font.min, font.max) as u8
    } else {
        random.byte()
    }
}

/// Makes one input of a good call one that is refused.
pub fn spoil(random: &mut Random, call: &mut Call, font: &MadeFont) {
    match random.below(6) {
        0 => call.shape = bad_shape(random, call.shape),
        1 => call.strip = random.pick(&[32, 32, 33, 65_536, 4_294_967_295]),
        2 => call.x = random.pick(&OUTSIDE),
        3 => call.y = random.pick(&OUTSIDE),
        4 => call.label = label_too_long(random, font),
        _ => call.mode = random.pick(&[3, 3, 4, 256, 65_536, 4_294_967_295]),
    }
}
