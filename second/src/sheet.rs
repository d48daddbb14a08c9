//! Sheets: what a list of label calls does to any panel, kept as two slices.

use crate::bits::{bit, set_bit};
use crate::label::{draw, Call, Mode, Pen};
use crate::panel::Shape;
use crate::refusal::Refused;

/// The two lent slices of a sheet.
pub struct Sheet<'a> {
    pub keep: &'a mut [u16],
    pub flip: &'a mut [u16],
}

pub fn fresh(shape: Shape, sheet: Sheet) -> Result<(), Refused> {
    shape.test(&[sheet.keep, sheet.flip])?;
    for place in 0..shape.words() {
        sheet.keep[place] = 0xFFFF;
        sheet.flip[place] = 0;
    }
    Ok(())
}

pub fn join(
    shape: Shape,
    first: Sheet,
    second_keep: &[u16],
    second_flip: &[u16],
) -> Result<(), Refused> {
    shape.test(&[first.keep, first.flip, second_keep, second_flip])?;
    for place in 0..shape.words() {
        let (k1, f1) = (first.keep[place], first.flip[place]);
        let (k2, f2) = (second_keep[place], second_flip[place]);
        first.keep[place] = k1 & k2;
        first.flip[place] = (f1 & k2) ^ f2;
    }
    Ok(())
}

pub fn apply(shape: Shape, keep: &[u16], flip: &[u16], panel: &mut [u16]) -> Result<(), Refused> {
    shape.test(&[keep, flip, panel])?;
    for place in 0..shape.words() {
        panel[place] = (panel[place] & keep[place]) ^ flip[place];
    }
    Ok(())
}

/// Joins the effect of each dot in the order of drawing, so that Invert flips twice where
/// two characters overlap.
pub fn gather(font_words: &[u16], call: &Call, sheet: Sheet) -> Result<Pen, Refused> {
    let drawing = draw(font_words, call, &[sheet.keep, sheet.flip])?;
    let (k2, f2) = effect_on_a_dot(drawing.mode);
    for &place in &drawing.dots {
        let number = call.shape.bit_number(place);
        let (k1, f1) = (bit(sheet.keep, number), bit(sheet.flip, number));
        set_bit(sheet.keep, number, k1 && k2);
        set_bit(sheet.flip, number, (f1 && k2) != f2);
    }
    Ok(drawing.reply)
}

/// The keep and the flip that make a dot 1, make it 0, or turn it over.
fn effect_on_a_dot(mode: Mode) -> (bool, bool) {
    match mode {
        Mode::Paint => (false, true),
        Mode::Erase => (false, false),
        Mode::Invert => (true, true),
    }
}
