//! Inputs of the preview program: fonts, shapes, and lines of all kinds.

use super::font_files::{font_without_blob, good_font, refused_font, MadeFont};
use super::label_calls::{bad_shape, good_call, small_shape};
use super::random::Random;
use crate::bits::{bytes_from_words, words_from_bytes};
use crate::label::Call;
use crate::panel::Shape;

/// The longest line that may be a label, and the longest font file.
const LINE_LIMIT: usize = 1_000;
const FONT_LIMIT: usize = 65_536;

pub struct PreviewInput {
    /// Whether the counts are asked for.
    pub counts: bool,
    /// None for a file that is not there.
    pub font: Option<Vec<u8>>,
    pub shape: Shape,
    pub lines: Vec<u8>,
}

/// The number chooses the sort, so that a moderate count holds all of them. The fonts that
/// are given are used in turn.
pub fn preview_input(random: &mut Random, number: usize, fonts: &[Vec<u8>]) -> PreviewInput {
    let turn = number / 10;
    let made = if number % 2 == 0 && !fonts.is_empty() {
        aimed(&fonts[number / 4 % fonts.len()])
    } else if number % 10 == 5 {
        font_without_blob(random)
    } else {
        good_font(random)
    };
    let good = if number % 4 == 0 {
        roomy_shape(random)
    } else {
        small_shape(random)
    };
    let shape = match number % 10 {
        7 | 8 if turn % 3 == 0 => bad_shape(random, good),
        _ => good,
    };
    let font = match number % 10 {
        8 => Some(refused_bytes(random, turn)),
        9 => unread_bytes(random, &made, turn),
        _ => Some(bytes_from_words(&made.words)),
    };
    PreviewInput {
        counts: number % 3 != 0,
        font,
        shape,
        lines: lines(random, good, &made),
    }
}

/// With room for several characters of a font of usual size.
fn roomy_shape(random: &mut Random) -> Shape {
    let (words_per_row, rows) = random.pick(&[(64, 22), (64, 22), (100, 40), (128, 256)]);
    Shape {
        words_per_row,
        rows,
        strip_width: words_per_row / 2,
    }
}

/// A KernedStrike font from a file, with the numbers that calls on it are aimed by.
fn aimed(bytes: &[u8]) -> MadeFont {
    let words = words_from_bytes(bytes).unwrap_or_default();
    let number = |place: usize| i64::from(words.get(place).copied().unwrap_or_default());
    MadeFont {
        min: number(1),
        max: number(2),
        ascent: number(9),
        height: number(9) + number(10),
        body_heights: vec![number(9) + number(10)],
        left: 0,
        words,
    }
}

/// A font that is refused for each of its numbers in turn, 14 among them.
fn refused_bytes(random: &mut Random, turn: usize) -> Vec<u8> {
    let made = if turn % 9 == 0 {
        good_font(random)
    } else {
        refused_font(random, turn)
    };
    let mut bytes = bytes_from_words(&made.words);
    if turn % 9 == 0 {
        bytes.push(random.byte());
    }
    bytes
}

/// No file, one that is too long, or one that is just not.
fn unread_bytes(random: &mut Random, made: &MadeFont, turn: usize) -> Option<Vec<u8>> {
    let mut bytes = bytes_from_words(&made.words);
    match turn % 5 {
        0 => return None,
        1 => bytes.resize(FONT_LIMIT + 1, 0),
        2 => bytes.resize(FONT_LIMIT + random.below(70_000), 0),
        3 => bytes.resize(FONT_LIMIT, 0),
        _ => bytes.resize(FONT_LIMIT - 1, 0),
    }
    Some(bytes)
}

fn lines(random: &mut Random, shape: Shape, made: &MadeFont) -> Vec<u8> {
    let mut text = Vec::new();
    for _ in 0..random.between(0, 24) {
        let call = good_call(random, shape, made);
        text.extend(any_line(random, call, made));
        text.extend(random.pick::<&[u8]>(&[b"", b"", b"", b"\r", b"\r\r"]));
        text.push(b'\n');
    }
    if random.one_in(2) {
        text.pop();
    }
    text
}

fn any_line(random: &mut Random, call: Call, made: &MadeFont) -> Vec<u8> {
    match random.below(14) {
        0 | 1 => spelt(&refused_call(random, call)),
        2 => no_label(random, &call),
        3 => limit_numbers(random, &call),
        4 => passed_over(random, &call),
        5 | 6 => of_length(random, &call),
        7 => without_text(random, call),
        8 => spelt(&with_codes_outside(random, call, made)),
        _ => spelt(&call),
    }
}

fn spelt(call: &Call) -> Vec<u8> {
    let numbers = [call.strip, call.x, call.y, call.mode].map(|number| number.to_string());
    joined(&numbers, &call.label)
}

/// The numbers as they are spelled, and the text behind them.
fn joined(numbers: &[String; 4], label: &[u8]) -> Vec<u8> {
    let mut line = numbers.join(" ").into_bytes();
    line.push(b' ');
    line.extend(label.iter().map(|&code| without_newline(code)));
    line
}

fn without_newline(code: u8) -> u8 {
    if code == b'\n' {
        b' '
    } else {
        code
    }
}

/// Refused by 9 to 12, by one of them or by several.
fn refused_call(random: &mut Random, mut call: Call) -> Call {
    for _ in 0..random.between(1, 2) {
        match random.below(5) {
            0 => call.strip = random.pick(&[32, 33, 4_294_967_295]),
            1 => call.x = random.pick(&[-1_025, 1_024, -2_147_483_648, 2_147_483_647]),
            2 => call.y = random.pick(&[-1_025, 1_024, -2_147_483_648, 2_147_483_647]),
            3 => call.label = vec![random.byte(); random.pick(&[65, 66, 900])],
            _ => call.mode = random.pick(&[3, 4, 4_294_967_295]),
        }
    }
    call
}

/// Numbers at the limits of their types, one past them, and with zeros before them.
fn limit_numbers(random: &mut Random, call: &Call) -> Vec<u8> {
    let unsigned = [
        "4294967295",
        "4294967296",
        "42949672950",
        "99999999999999999999",
        "-0",
        "-1",
    ];
    let signed = [
        "2147483647",
        "2147483648",
        "-2147483648",
        "-2147483649",
        "4294967297",
        "-0",
        "--1",
        "-",
    ];
    let mut numbers = [call.strip, call.x, call.y, call.mode].map(|number| number.to_string());
    let place = random.below(4);
    let is_signed = place == 1 || place == 2;
    numbers[place] = match random.below(3) {
        0 => match numbers[place].strip_prefix('-') {
            Some(digits) => format!("-000{digits}"),
            None => format!("00000000000000000000{}", numbers[place]),
        },
        _ if is_signed => random.pick(&signed).to_string(),
        _ => random.pick(&unsigned).to_string(),
    };
    joined(&numbers, &call.label)
}

/// A line with a fault in it. A byte put in at random may still leave it a label.
fn no_label(random: &mut Random, call: &Call) -> Vec<u8> {
    let mut line = spelt(call);
    let place = random.below(line.len().min(8));
    match random.below(8) {
        0 => line.truncate(place),
        1 => line.insert(place, b' '),
        2 => line.insert(0, b' '),
        3 => line.insert(0, b'+'),
        4 => line[place] = without_newline(random.byte()),
        5 => line.insert(place, b'\t'),
        6 => line = b"not a label".to_vec(),
        _ => line = format!("{} {} {}", call.strip, call.x, call.y).into_bytes(),
    }
    line
}

fn passed_over(random: &mut Random, call: &Call) -> Vec<u8> {
    match random.below(3) {
        0 => Vec::new(),
        1 => [b"#".to_vec(), spelt(call)].concat(),
        _ => vec![b'#'; random.pick(&[1, LINE_LIMIT + 1, 70_000])],
    }
}

/// A line at the limit of lines and past it, in which a carriage return may stand where the
/// limit is or at the end. The line is a label that is too long, or one with zeros before it.
fn of_length(random: &mut Random, call: &Call) -> Vec<u8> {
    let mut line = spelt(call);
    let near = LINE_LIMIT + random.below(5) - 1;
    let length = random.pick(&[near, near, near, 1_500, 70_000]);
    if random.one_in(2) {
        line.resize(length, b'1');
    } else {
        line.splice(0..0, vec![b'0'; length - line.len()]);
    }
    let places = [None, Some(LINE_LIMIT), Some(length - 1)];
    if let Some(byte) = random.pick(&places).and_then(|place| line.get_mut(place)) {
        *byte = b'\r';
    }
    line
}

/// The label with codes put in that lie below the font's least or above its greatest.
fn with_codes_outside(random: &mut Random, mut call: Call, made: &MadeFont) -> Call {
    let is_outside = |&code: &u8| !(made.min..=made.max).contains(&i64::from(code));
    let outside: Vec<u8> = (0..=255).filter(is_outside).collect();
    if !outside.is_empty() {
        for _ in 0..random.between(1, 3) {
            let place = random.below(call.label.len() + 1);
            call.label.insert(place, random.pick(&outside));
        }
    }
    call
}

/// A label with no text, with the space before it or without.
fn without_text(random: &mut Random, mut call: Call) -> Vec<u8> {
    call.label.clear();
    let mut line = spelt(&call);
    if random.one_in(2) {
        line.pop();
    }
    line
}
