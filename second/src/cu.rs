//! Reading a CU file and writing a KernedStrike file from it.

mod strike;

use std::collections::BTreeSet;

use crate::bits::{bit, words_from_bytes};
use crate::refusal::{refuse_if, Refused};
use strike::Strike;

const LETTER_A: i64 = 65;
const PROGRAM_INPUT_BYTES: usize = 65_536;
const PROGRAM_OUTPUT_WORDS: usize = 32_768;

/// One character as the file has it.
struct Character<'a> {
    code: i64,
    spacing: i64,
    raster: &'a [u16],
}

/// A CU file whose words divide into characters.
struct CuFile<'a> {
    height: i64,
    word_width: i64,
    characters: Vec<Character<'a>>,
}

/// The raster's row and column that have x = 0 and y = 0.
#[derive(Clone, Copy)]
struct Origin {
    row: i64,
    column: i64,
}

/// The least box around some dots, both edges within it.
#[derive(Clone, Copy)]
struct DotBox {
    left: i64,
    right: i64,
    bottom: i64,
    top: i64,
}

/// The conversion of words into the lent output; the reply is the number of words written.
pub fn convert(cu: &[u16], output: &mut [u16]) -> Result<usize, Refused> {
    let file = CuFile::read(cu)?;
    refuse_if(!file.codes_are_allowed(), 22)?;
    let origin = file.origin().ok_or(Refused(23))?;
    let strike = Strike::of(&file, origin);
    refuse_if(strike.has_spacing_that_does_not_fit(), 24)?;
    refuse_if(strike.has_offset_that_does_not_fit(), 25)?;
    refuse_if(
        strike.columns() > 65_535 || strike.body_length() > 65_535,
        26,
    )?;
    refuse_if((output.len() as i64) < strike.file_length(), 27)?;
    let written = strike.words();
    output[..written.len()].copy_from_slice(&written);
    Ok(written.len())
}

/// The conversion program: what it prints for the bytes of its input.
pub fn program(input: &[u8]) -> Result<Vec<u16>, Refused> {
    refuse_if(input.len() > PROGRAM_INPUT_BYTES, 21)?;
    let words = words_from_bytes(input).ok_or(Refused(14))?;
    let mut output = vec![0; PROGRAM_OUTPUT_WORDS];
    let written = convert(&words, &mut output)?;
    output.truncate(written);
    Ok(output)
}

impl<'a> CuFile<'a> {
    fn read(words: &'a [u16]) -> Result<CuFile<'a>, Refused> {
        refuse_if(words.len() < 2, 20)?;
        let height = i64::from(words[0]);
        let word_width = i64::from(words[1]);
        refuse_if(!(1..=128).contains(&height), 20)?;
        refuse_if(!(1..=16).contains(&word_width), 20)?;
        let character_words = (2 + height * word_width) as usize;
        let rest = &words[2..];
        refuse_if(rest.len() % character_words != 0, 21)?;
        let characters = rest.chunks(character_words).map(Character::read).collect();
        Ok(CuFile {
            height,
            word_width,
            characters,
        })
    }

    fn codes_are_allowed(&self) -> bool {
        let mut seen = BTreeSet::new();
        self.characters
            .iter()
            .all(|character| character.code <= 255 && seen.insert(character.code))
    }

    /// The lowest row of the letter A that has a dot, and its leftmost dot.
    fn origin(&self) -> Option<Origin> {
        let letter = self.characters.iter().find(|c| c.code == LETTER_A)?;
        for row in (0..self.height).rev() {
            for column in 0..self.columns() {
                if self.dot(letter, row, column) {
                    return Some(Origin { row, column });
                }
            }
        }
        None
    }

    fn columns(&self) -> i64 {
        16 * self.word_width
    }

    fn dot(&self, character: &Character, row: i64, column: i64) -> bool {
        bit(character.raster, (row * self.columns() + column) as usize)
    }

    /// The box of a character, or none for an empty one.
    fn dot_box(&self, character: &Character, origin: Origin) -> Option<DotBox> {
        let mut found: Option<DotBox> = None;
        for row in 0..self.height {
            for column in 0..self.columns() {
                if self.dot(character, row, column) {
                    let dot = DotBox::of_dot(column - origin.column, origin.row - row);
                    found = Some(found.map_or(dot, |other| other.united(dot)));
                }
            }
        }
        found
    }
}

impl<'a> Character<'a> {
    fn read(words: &'a [u16]) -> Character<'a> {
        Character {
            code: i64::from(words[0]),
            spacing: i64::from(words[1]),
            raster: &words[2..],
        }
    }
}

impl DotBox {
    fn of_dot(x: i64, y: i64) -> DotBox {
        DotBox {
            left: x,
            right: x,
            bottom: y,
            top: y,
        }
    }

    fn united(self, other: DotBox) -> DotBox {
        DotBox {
            left: self.left.min(other.left),
            right: self.right.max(other.right),
            bottom: self.bottom.min(other.bottom),
            top: self.top.max(other.top),
        }
    }

    fn columns(&self) -> i64 {
        self.right - self.left + 1
    }

    fn rows(&self) -> i64 {
        self.top - self.bottom + 1
    }
}
