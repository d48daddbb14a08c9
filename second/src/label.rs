//! Measuring and painting a label.

use crate::bits::{bit, set_bit};
use crate::font::{self, Font, Glyph};
use crate::panel::{Place, Shape};
use crate::refusal::{refuse_if, Refused};

/// A label call without its font and the slices it is lent.
#[derive(Debug, Clone, PartialEq, Eq)]
pub struct Call {
    pub shape: Shape,
    pub strip: i64,
    pub x: i64,
    pub y: i64,
    pub mode: i64,
    pub label: Vec<u8>,
}

#[derive(Debug, Clone, Copy, PartialEq, Eq)]
pub enum Mode {
    Paint,
    Erase,
    Invert,
}

/// The pen's place in strip columns, and the substitutes drawn so far. The last pen is the
/// reply.
#[derive(Debug, Clone, Copy, PartialEq, Eq)]
pub struct Pen {
    pub x: i64,
    pub substitutes: i64,
}

/// An accepted label: where its dots fall, in the order in which they are drawn. A dot that
/// two characters share is there twice.
pub struct Drawing {
    pub mode: Mode,
    pub dots: Vec<Place>,
    pub reply: Pen,
}

pub fn measure(font_words: &[u16], x: i64, label: &[u8]) -> Result<Pen, Refused> {
    let font = font::read(font_words)?;
    refuse_if(!is_allowed_place(x), 10)?;
    refuse_if(is_too_long(label), 11)?;
    let start = Pen::starting_at(x);
    Ok(label.iter().fold(start, |pen, &code| {
        pen.moved_over(&font.glyph(i64::from(code)))
    }))
}

pub fn paint(font_words: &[u16], call: &Call, panel: &mut [u16]) -> Result<Pen, Refused> {
    let drawing = draw(font_words, call, &[panel])?;
    for &place in &drawing.dots {
        let number = call.shape.bit_number(place);
        let before = bit(panel, number);
        set_bit(panel, number, drawing.mode.dot_after(before));
    }
    Ok(drawing.reply)
}

/// The tests of a label call in the table's order, and then its dots. The lent slices are
/// looked at for their length alone.
pub fn draw(font_words: &[u16], call: &Call, lent: &[&[u16]]) -> Result<Drawing, Refused> {
    let font = font::read(font_words)?;
    call.shape.test(lent)?;
    refuse_if(call.strip > 31, 9)?;
    refuse_if(!is_allowed_place(call.x) || !is_allowed_place(call.y), 10)?;
    refuse_if(is_too_long(&call.label), 11)?;
    let mode = Mode::numbered(call.mode).ok_or(Refused(12))?;
    let (dots, reply) = dots_of_label(&font, call);
    Ok(Drawing { mode, dots, reply })
}

fn is_allowed_place(place: i64) -> bool {
    (-1024..=1023).contains(&place)
}

fn is_too_long(label: &[u8]) -> bool {
    label.len() > 64
}

fn dots_of_label(font: &Font, call: &Call) -> (Vec<Place>, Pen) {
    let mut dots = Vec::new();
    let mut pen = Pen::starting_at(call.x);
    for &code in &call.label {
        let glyph = font.glyph(i64::from(code));
        dots.extend(dots_of_glyph(&glyph, call, pen));
        pen = pen.moved_over(&glyph);
    }
    (dots, pen)
}

/// A picture's rows are placed by its own ascent: the bodies of an index have each its own.
fn dots_of_glyph(glyph: &Glyph, call: &Call, pen: Pen) -> Vec<Place> {
    let mut dots = Vec::new();
    for row in 0..glyph.height() {
        for column in 0..glyph.columns {
            if glyph.dot(row, column) {
                let panel_row = call.y - glyph.ascent() + row;
                let strip_column = pen.x + glyph.place + column;
                dots.extend(
                    call.shape
                        .place_in_strip(call.strip, panel_row, strip_column),
                );
            }
        }
    }
    dots
}

impl Pen {
    fn starting_at(x: i64) -> Pen {
        Pen { x, substitutes: 0 }
    }

    fn moved_over(self, glyph: &Glyph) -> Pen {
        Pen {
            x: self.x + glyph.spacing,
            substitutes: self.substitutes + i64::from(glyph.substitute),
        }
    }
}

impl Mode {
    fn numbered(number: i64) -> Option<Mode> {
        match number {
            0 => Some(Mode::Paint),
            1 => Some(Mode::Erase),
            2 => Some(Mode::Invert),
            _ => None,
        }
    }

    fn dot_after(self, before: bool) -> bool {
        match self {
            Mode::Paint => true,
            Mode::Erase => false,
            Mode::Invert => !before,
        }
    }
}
