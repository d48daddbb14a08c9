//! Lists of label calls for one shape, each call with a font of its own.

use std::rc::Rc;

use super::font_files::{good_font, MadeFont};
use super::label_calls::{good_call, spoil};
use super::random::Random;
use crate::label::Call;
use crate::panel::Shape;

#[derive(Clone)]
pub struct FontCall {
    pub font: Rc<MadeFont>,
    pub call: Call,
}

/// Calls in mixed modes, with refused ones among them. The font changes from call to call,
/// between the given one and up to two others.
pub fn random_calls(random: &mut Random, shape: Shape, font: Rc<MadeFont>) -> Vec<FontCall> {
    let mut fonts = vec![font];
    for _ in 0..random.below(3) {
        fonts.push(Rc::new(good_font(random)));
    }
    let strip = random.between(0, 30);
    (0..random.between(1, 6))
        .map(|_| {
            let font = Rc::clone(&fonts[random.below(fonts.len())]);
            let call = random_call(random, shape, &font, strip);
            FontCall { font, call }
        })
        .collect()
}

/// Mostly for a strip or the one beside it, so that a list has several calls for each.
fn random_call(random: &mut Random, shape: Shape, font: &MadeFont, strip: i64) -> Call {
    let mut call = good_call(random, shape, font);
    if !random.one_in(4) {
        call.strip = random.pick(&[strip, strip + 1]);
    }
    if random.one_in(6) {
        spoil(random, &mut call, font);
    }
    call
}

/// The calls in another order, in which those for each strip come as they came.
pub fn exchanged(random: &mut Random, calls: &[FontCall]) -> Vec<FontCall> {
    let mut strips: Vec<i64> = calls.iter().map(|given| given.call.strip).collect();
    random.shuffle(&mut strips);
    let mut left = calls.to_vec();
    strips
        .into_iter()
        .map(|strip| {
            let next = left.iter().position(|given| given.call.strip == strip);
            left.remove(next.expect("a strip stays as often as it was"))
        })
        .collect()
}
