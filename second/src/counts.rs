//! The lit dots of each strip, kept beside the panel.

use crate::bits::bit;
use crate::label::{self, Call, Pen};
use crate::panel::Shape;
use crate::refusal::Refused;
use crate::sheet;

pub const STRIPS: usize = 32;

/// One count for each strip.
pub type Counts = [u32; STRIPS];

pub fn paint(
    font_words: &[u16],
    call: &Call,
    panel: &mut [u16],
    counts: &mut Counts,
) -> Result<Pen, Refused> {
    let mut after = panel.to_vec();
    let reply = label::paint(font_words, call, &mut after)?;
    accept(call.shape, &after, panel, counts)?;
    Ok(reply)
}

pub fn apply(
    shape: Shape,
    keep: &[u16],
    flip: &[u16],
    panel: &mut [u16],
    counts: &mut Counts,
) -> Result<(), Refused> {
    let mut after = panel.to_vec();
    sheet::apply(shape, keep, flip, &mut after)?;
    accept(shape, &after, panel, counts)
}

/// The first R × H words of the panel become 0.
pub fn clear(shape: Shape, panel: &mut [u16], counts: &mut Counts) -> Result<(), Refused> {
    shape.test(&[panel])?;
    let mut after = panel.to_vec();
    after[..shape.words()].fill(0);
    accept(shape, &after, panel, counts)
}

/// Test 30, and then the panel after the call stands in the place of the one before it.
fn accept(
    shape: Shape,
    after: &[u16],
    panel: &mut [u16],
    counts: &mut Counts,
) -> Result<(), Refused> {
    *counts = counts_after(shape, panel, after, counts).ok_or(Refused(30))?;
    panel.copy_from_slice(after);
    Ok(())
}

/// None where a count is over the dots of a strip, or would be, or would be under 0.
fn counts_after(shape: Shape, before: &[u16], after: &[u16], counts: &Counts) -> Option<Counts> {
    let most = shape.strip_width * shape.rows;
    let mut new_counts = *counts;
    for (strip, count) in new_counts.iter_mut().enumerate() {
        let old = i64::from(*count);
        let new = old + change_of_strip(shape, before, after, strip as i64);
        if old > most || new < 0 || new > most {
            return None;
        }
        *count = new as u32;
    }
    Some(new_counts)
}

/// The dots that the strip gained less those that it lost.
fn change_of_strip(shape: Shape, before: &[u16], after: &[u16], strip: i64) -> i64 {
    let mut change = 0;
    for row in 0..shape.rows {
        for column in strip * shape.strip_width..(strip + 1) * shape.strip_width {
            let number = shape.bit_number((row, column));
            match (bit(before, number), bit(after, number)) {
                (false, true) => change += 1,
                (true, false) => change -= 1,
                _ => (),
            }
        }
    }
    change
}

/// Each count is two words, the high one first; words that are not there count as 0.
pub fn counts_of_words(words: &[u16]) -> Counts {
    let mut counts = [0; STRIPS];
    for (strip, count) in counts.iter_mut().enumerate() {
        let word = |place: usize| u32::from(words.get(place).copied().unwrap_or(0));
        *count = word(2 * strip) * 65_536 + word(2 * strip + 1);
    }
    counts
}

pub fn words_of_counts(counts: &Counts) -> Vec<u16> {
    counts
        .iter()
        .flat_map(|count| [(count / 65_536) as u16, (count % 65_536) as u16])
        .collect()
}
