//! The preview program: label lines painted on a panel, and a picture of the panel.

use crate::bits::{bit, words_from_bytes};
use crate::counts::{self, Counts};
use crate::font;
use crate::label::{Call, Pen};
use crate::panel::Shape;
use crate::refusal::Refused;

pub const USAGE: &str = "usage: preview [--counts] FONT R H W\n";

pub const HELP: &str = "\
usage: preview [--counts] FONT R H W < LINES > PICTURE

Paints labels on a panel and writes a picture of it (PBM, kind P4).
FONT is a strike file. R is the words of a row of the panel, 16 dots each, H its rows, W the columns of a strip.

Each line of the input is STRIP X Y MODE TEXT, with one space behind each number:
  STRIP  0 to 31
  X      where the pen starts, in columns from the left of the strip: -1024 to 1023
  Y      the row of the baseline: the first row below the letters' feet, -1024 to 1023
  MODE   0 paints, 1 erases, 2 inverts
  TEXT   up to 64 bytes, to the end of the line
Empty lines, and lines that begin with #, are passed over.

What is wrong with a line, and how many codes of it the font does not have, is said on standard error; the rest is painted all the same.
With --counts the lit dots of each strip are told on standard error, one line a strip.
";

const MOST_FONT_BYTES: usize = 65_536;
const MOST_LINE_BYTES: usize = 1_000;
const PANEL_WORDS: usize = 32_768;

/// What comes on standard output and on standard error.
#[derive(Debug, Clone, Default, PartialEq, Eq)]
pub struct Written {
    pub picture: Vec<u8>,
    pub errors: String,
    /// None where there is no picture.
    pub counts: Option<Counts>,
}

impl Written {
    /// What comes on standard error behind the picture, where the counts are asked for.
    pub fn counts_text(&self) -> String {
        let counts = self.counts.iter().flatten().enumerate();
        counts
            .map(|(strip, count)| format!("strip {strip}: {count} lit\n"))
            .collect()
    }
}

#[derive(Debug, Clone, PartialEq, Eq)]
enum Line {
    PassedOver,
    NoLabel,
    Label(Call),
}

/// What the arguments behind the program's name say.
#[derive(Debug, Clone, Copy, PartialEq, Eq)]
pub struct Arguments<'a> {
    pub counts: bool,
    pub font: &'a str,
    pub shape: Shape,
}

/// Of four arguments the first is the font's name, whatever it is.
pub fn arguments<'a>(words: &[&'a str]) -> Option<Arguments<'a>> {
    let (counts, font, numbers) = match words {
        [font, numbers @ ..] if numbers.len() == 3 => (false, font, numbers),
        ["--counts", font, numbers @ ..] if numbers.len() == 3 => (true, font, numbers),
        _ => return None,
    };
    Some(Arguments {
        counts,
        font,
        shape: Shape {
            words_per_row: unsigned(numbers[0].as_bytes())?,
            rows: unsigned(numbers[1].as_bytes())?,
            strip_width: unsigned(numbers[2].as_bytes())?,
        },
    })
}

/// The font is none where its file could not be read.
pub fn preview(font_bytes: Option<&[u8]>, shape: Shape, lines: &[u8]) -> Written {
    let mut panel = vec![0; PANEL_WORDS];
    let tested = font_words(font_bytes).and_then(|words| match shape.test(&[&panel]) {
        Ok(()) => Ok(words),
        Err(refused) => Err(format!("panel: {}\n", refused.in_words())),
    });
    match tested {
        Err(errors) => Written {
            errors,
            ..Written::default()
        },
        Ok(words) => {
            let mut counts = [0; counts::STRIPS];
            let errors = paint_lines(&words, shape, lines, &mut panel, &mut counts);
            Written {
                picture: picture(shape, &panel),
                errors,
                counts: Some(counts),
            }
        }
    }
}

fn font_words(bytes: Option<&[u8]>) -> Result<Vec<u16>, String> {
    let bytes = bytes.ok_or("font: cannot be read\n")?;
    if bytes.len() > MOST_FONT_BYTES {
        return Err("font: too long\n".to_string());
    }
    accepted_words(bytes).map_err(|refused| format!("font: {}\n", refused.in_words()))
}

fn accepted_words(bytes: &[u8]) -> Result<Vec<u16>, Refused> {
    let words = words_from_bytes(bytes).ok_or(Refused(14))?;
    font::read(&words)?;
    Ok(words)
}

fn paint_lines(
    font: &[u16],
    shape: Shape,
    lines: &[u8],
    panel: &mut [u16],
    counts: &mut Counts,
) -> String {
    let mut errors = String::new();
    for (before, line) in lines.split(|&byte| byte == b'\n').enumerate() {
        let reply = match read_line(shape, without_return(line)) {
            Line::PassedOver => None,
            Line::NoLabel => Some("not a label".to_string()),
            Line::Label(call) => said_of(counts::paint(font, &call, panel, counts)),
        };
        if let Some(reply) = reply {
            errors.push_str(&format!("line {}: {reply}\n", before + 1));
        }
    }
    errors
}

/// A carriage return at the end of a line is no part of it; of two the first is.
fn without_return(line: &[u8]) -> &[u8] {
    line.strip_suffix(b"\r").unwrap_or(line)
}

fn said_of(painted: Result<Pen, Refused>) -> Option<String> {
    match painted {
        Err(refused) => Some(refused.in_words()),
        Ok(Pen { substitutes: 0, .. }) => None,
        Ok(Pen { substitutes, .. }) => Some(format!("codes shown as the dummy: {substitutes}")),
    }
}

fn read_line(shape: Shape, line: &[u8]) -> Line {
    if line.is_empty() || line[0] == b'#' {
        return Line::PassedOver;
    }
    if line.len() > MOST_LINE_BYTES {
        return Line::NoLabel;
    }
    label_line(shape, line).map_or(Line::NoLabel, Line::Label)
}

/// Four numbers and the text, with a space between any two of the five. The text and the
/// space before it may be missing.
fn label_line(shape: Shape, line: &[u8]) -> Option<Call> {
    let mut fields = line.splitn(5, |&byte| byte == b' ');
    Some(Call {
        shape,
        strip: unsigned(fields.next()?)?,
        x: signed(fields.next()?)?,
        y: signed(fields.next()?)?,
        mode: unsigned(fields.next()?)?,
        label: fields.next().unwrap_or_default().to_vec(),
    })
}

/// A number of 32 bits, with as many zeros before it as there may be.
fn unsigned(field: &[u8]) -> Option<i64> {
    let text = std::str::from_utf8(field).ok()?;
    let all_digits = !text.is_empty() && text.bytes().all(|byte| byte.is_ascii_digit());
    if !all_digits {
        return None;
    }
    let digits = text.trim_start_matches('0');
    let value = if digits.is_empty() {
        0
    } else {
        digits.parse::<u32>().ok()?
    };
    Some(i64::from(value))
}

fn signed(field: &[u8]) -> Option<i64> {
    let value = match field.strip_prefix(b"-") {
        Some(digits) => -unsigned(digits)?,
        None => unsigned(field)?,
    };
    i32::try_from(value).ok().map(i64::from)
}

/// A PBM file of the kind P4, dot by dot.
fn picture(shape: Shape, panel: &[u16]) -> Vec<u8> {
    let columns = 16 * shape.words_per_row;
    let mut file = format!("P4\n{columns} {}\n", shape.rows).into_bytes();
    for row in 0..shape.rows {
        for first in (0..columns).step_by(8) {
            let dots = (first..first + 8).map(|column| bit(panel, shape.bit_number((row, column))));
            file.push(dots.fold(0, |byte, dot| 2 * byte + u8::from(dot)));
        }
    }
    file
}
