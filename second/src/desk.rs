//! The calls of the desk, which hands its font as bytes.

use crate::bits::words_from_bytes;
use crate::font;
use crate::label::{measure, Pen};
use crate::refusal::{refuse_if, Refused};

pub fn check(font_bytes: &[u8]) -> Result<(), Refused> {
    let words = words_from_bytes(font_bytes).ok_or(Refused(14))?;
    font::read(&words).map(|_| ())
}

pub fn measure_label(font_bytes: &[u8], x: i64, label: &[u8]) -> Result<Pen, Refused> {
    let words = words_from_bytes(font_bytes).ok_or(Refused(14))?;
    measure(&words, x, label)
}

/// Writes the words that the bytes spell over the first words of the output, and answers how
/// many they are.
pub fn words(bytes: &[u8], output: &mut [u16]) -> Result<usize, Refused> {
    let words = words_from_bytes(bytes).ok_or(Refused(14))?;
    refuse_if(output.len() < words.len(), 27)?;
    output[..words.len()].copy_from_slice(&words);
    Ok(words.len())
}
