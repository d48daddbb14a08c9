//! CU files: good ones, ones at a limit and one past it, and damaged ones.

use std::collections::BTreeSet;

use super::random::Random;

pub const LETTER_A: u16 = 65;

/// Damage to the first two words leaves the size of the rasters as it was.
pub struct CuFile {
    height: u16,
    word_width: u16,
    raster_words: usize,
    characters: Vec<Character>,
    trailing: Vec<u16>,
}

struct Character {
    code: u16,
    spacing: u16,
    raster: Vec<u16>,
}

impl CuFile {
    fn new(height: u16, word_width: u16) -> CuFile {
        CuFile {
            height,
            word_width,
            raster_words: usize::from(height) * usize::from(word_width),
            characters: Vec::new(),
            trailing: Vec::new(),
        }
    }

    pub fn words(&self) -> Vec<u16> {
        let mut words = vec![self.height, self.word_width];
        for character in &self.characters {
            words.extend([character.code, character.spacing]);
            words.extend(&character.raster);
        }
        words.extend(&self.trailing);
        words
    }

    fn add(&mut self, code: u16, spacing: u16, raster: Vec<u16>) {
        self.characters.push(Character {
            code,
            spacing,
            raster,
        });
    }

    fn add_empty(&mut self, code: u16, spacing: u16) {
        self.add(code, spacing, vec![0; self.raster_words]);
    }

    /// A character whose first so many columns are all dots.
    fn add_filled(&mut self, code: u16, spacing: u16, columns: usize) {
        let row = filled_row(usize::from(self.word_width), columns);
        self.add(code, spacing, row.repeat(usize::from(self.height)));
    }

    /// A character with a single dot, in its top row.
    fn add_one_dot(&mut self, code: u16, spacing: u16, column: usize) {
        let mut raster = vec![0; self.raster_words];
        raster[column / 16] = 0x8000 >> (column % 16);
        self.add(code, spacing, raster);
    }

    fn letter_a(&mut self) -> &mut Character {
        let mut letters = self.characters.iter_mut();
        letters
            .find(|character| character.code == LETTER_A)
            .expect("every file is made with the letter A")
    }
}

fn filled_row(word_width: usize, columns: usize) -> Vec<u16> {
    let mut row = vec![0; word_width];
    for column in 0..columns {
        row[column / 16] |= 0x8000 >> (column % 16);
    }
    row
}

/// A small file in any order of codes, with empty characters among them.
pub fn good_file(random: &mut Random) -> CuFile {
    let height = random.between(1, 6) as u16;
    let word_width = random.pick(&[1, 1, 1, 2, 3]);
    let mut file = CuFile::new(height, word_width);
    let mut codes = random_codes(random);
    random.shuffle(&mut codes);
    let one_spacing = random.one_in(4).then(|| random_spacing(random));
    for code in codes {
        let spacing = one_spacing.unwrap_or_else(|| random_spacing(random));
        let raster = random_raster(random, file.raster_words);
        file.add(code, spacing, raster);
    }
    give_a_dot(random, &mut file.letter_a().raster);
    file
}

fn random_codes(random: &mut Random) -> Vec<u16> {
    let count = match random.below(40) {
        0 => 255,
        1..=5 => 0,
        _ => random.between(1, 6),
    };
    let mut codes = BTreeSet::from([LETTER_A]);
    for place in 0..count {
        let code = match random.below(3) {
            _ if count == 255 => place,
            0 => random.between(0, 255),
            _ => random.between(60, 72),
        };
        codes.insert(code as u16);
    }
    if count == 255 {
        codes.insert(255);
    }
    codes.into_iter().collect()
}

fn random_spacing(random: &mut Random) -> u16 {
    match random.below(10) {
        0 => random.pick(&[0, 254, 255]),
        _ => random.between(0, 12) as u16,
    }
}

fn random_raster(random: &mut Random, words: usize) -> Vec<u16> {
    let style = random.below(8);
    let mut raster: Vec<u16> = (0..words)
        .map(|_| match style {
            0 | 1 => 0,
            2 => random.word(),
            3 => 0xFFFF,
            4 => random.word() & 0xFC00,
            _ => random.word() & random.word() & random.word(),
        })
        .collect();
    if style == 1 {
        give_a_dot(random, &mut raster);
    }
    raster
}

/// A raster of a size past the limits may have no words.
fn give_a_dot(random: &mut Random, raster: &mut [u16]) {
    if !raster.is_empty() {
        let place = random.below(raster.len());
        raster[place] |= 0x8000 >> random.below(16);
    }
}

/// Rasters of many rows and columns, up to the most, with few dots in each.
pub fn large_file(random: &mut Random) -> CuFile {
    let height = random.between(16, 128) as u16;
    let word_width = random.between(4, 16) as u16;
    let mut file = CuFile::new(height, word_width);
    let mut codes = random_codes(random);
    random.shuffle(&mut codes);
    for code in codes {
        let mut raster = vec![0; file.raster_words];
        for _ in 0..random.below(6) {
            give_a_dot(random, &mut raster);
        }
        file.add(code, random_spacing(random), raster);
    }
    give_a_dot(random, &mut file.letter_a().raster);
    file
}

pub fn damaged_file(random: &mut Random, turn: usize) -> CuFile {
    let mut file = good_file(random);
    let damage = DAMAGES[turn % DAMAGES.len()];
    damage(random, &mut file);
    if random.one_in(3) {
        let damage = random.pick(&DAMAGES);
        damage(random, &mut file);
    }
    file
}

const DAMAGES: [fn(&mut Random, &mut CuFile); 14] = [
    |random, file| file.height = random.pick(&[0, 129, 65_535]),
    |random, file| file.word_width = random.pick(&[0, 17, 65_535]),
    |random, file| file.trailing.push(random.word()),
    |_, file| file.trailing = vec![0; file.raster_words + 1],
    |_, file| {
        file.characters.last_mut().map(|last| last.raster.pop());
    },
    |random, file| random_character(random, file).code = 256,
    |random, file| random_character(random, file).code = random.pick(&[321, 65_535]),
    same_code_twice,
    |random, file| file.letter_a_becomes(random.pick(&[64, 66, 97])),
    |_, file| file.letter_a_loses_its_dots(),
    |_, file| file.characters.clear(),
    |random, file| random_character(random, file).spacing = 256,
    |random, file| random_character(random, file).spacing = random.pick(&[257, 511, 65_535]),
    |random, file| random_character(random, file).spacing = 255,
];

impl CuFile {
    fn letter_a_becomes(&mut self, code: u16) {
        for character in &mut self.characters {
            if character.code == LETTER_A {
                character.code = code;
            }
        }
    }

    fn letter_a_loses_its_dots(&mut self) {
        for character in &mut self.characters {
            if character.code == LETTER_A {
                character.raster.fill(0);
            }
        }
    }
}

/// Any character; a file without one gets the letter A.
fn random_character<'a>(random: &mut Random, file: &'a mut CuFile) -> &'a mut Character {
    if file.characters.is_empty() {
        file.add_empty(LETTER_A, 1);
    }
    let place = random.below(file.characters.len());
    &mut file.characters[place]
}

fn same_code_twice(random: &mut Random, file: &mut CuFile) {
    let code = random_character(random, file).code;
    let raster = random_raster(random, file.raster_words);
    file.add(code, 3, raster);
}

/// Files at a limit and one past it, with no other fault.
pub fn special_file(random: &mut Random, turn: usize) -> CuFile {
    let special = SPECIALS[turn % SPECIALS.len()];
    let mut file = special(random);
    random.shuffle(&mut file.characters);
    file
}

pub const SPECIALS: [fn(&mut Random) -> CuFile; 27] = [
    |random| of_size(random, 0, 1),
    |random| of_size(random, 1, 1),
    |random| of_size(random, 128, 1),
    |random| of_size(random, 129, 1),
    |random| of_size(random, 2, 0),
    |random| of_size(random, 2, 16),
    |random| of_size(random, 2, 17),
    |random| of_size(random, 128, 16),
    |_| of_offset(255, 255),
    |_| of_offset(255, 254),
    |_| of_offset(254, 255),
    |_| of_offset(255, 256),
    |_| empty_of_greatest_offset(255),
    |_| empty_of_greatest_offset(254),
    |random| of_code(random, 255),
    |random| of_code(random, 256),
    |_| file_of_most_columns(255),
    |_| file_of_most_columns(256),
    too_many_columns_and_too_much_spacing,
    |_| of_body_length(120),
    |_| of_body_length(121),
    |random| of_all_codes(random, 1),
    |random| of_all_codes(random, 2),
    |_| CuFile::new(3, 1),
    |random| letter_a_alone(random, 1),
    |random| letter_a_alone(random, 16),
    of_the_greatest_size,
];

fn of_size(random: &mut Random, height: u16, word_width: u16) -> CuFile {
    let mut file = CuFile::new(height, word_width);
    for code in [64, LETTER_A, 70] {
        let spacing = random_spacing(random);
        let raster = random_raster(random, file.raster_words);
        file.add(code, spacing, raster);
    }
    give_a_dot(random, &mut file.letter_a().raster);
    file
}

/// The letter A begins in column 0 and another character so many columns right of it.
fn of_offset(offset: usize, spacing: u16) -> CuFile {
    let mut file = CuFile::new(1, 16);
    file.add_one_dot(LETTER_A, 4, 0);
    file.add_one_dot(LETTER_A + 1, spacing, offset);
    file
}

/// An empty character's box lies at the origin, here 255 columns right of the font's box.
fn empty_of_greatest_offset(spacing: u16) -> CuFile {
    let mut file = CuFile::new(1, 16);
    file.add_one_dot(LETTER_A, 4, 255);
    file.add_one_dot(LETTER_A + 1, 4, 0);
    file.add_empty(LETTER_A + 2, spacing);
    file
}

fn of_code(random: &mut Random, code: u16) -> CuFile {
    let mut file = letter_a_alone(random, 1);
    file.add_filled(code, 5, 3);
    file
}

/// With 255 the pictures have 65535 columns in all, the greatest number; with 256, one more.
pub fn file_of_most_columns(last_width: usize) -> CuFile {
    let mut file = CuFile::new(1, 16);
    for code in 0..=253 {
        file.add_filled(code, 9, 256);
    }
    file.add_empty(254, 3);
    file.add_filled(255, 3, last_width);
    file
}

fn too_many_columns_and_too_much_spacing(random: &mut Random) -> CuFile {
    let mut file = file_of_most_columns(256);
    random_character(random, &mut file).spacing = 256;
    file
}

/// With 120 codes the length word is 65535, the greatest; with 121 it is past that.
fn of_body_length(codes: u16) -> CuFile {
    let mut file = CuFile::new(128, 16);
    file.add_filled(LETTER_A, 9, 240);
    for code in 1..30 {
        file.add_filled(LETTER_A + code, 9, 256);
    }
    file.add_filled(LETTER_A + codes - 1, 9, 256);
    file
}

fn of_all_codes(random: &mut Random, height: u16) -> CuFile {
    let mut file = CuFile::new(height, 1);
    for code in 0..=255 {
        let spacing = random_spacing(random);
        let raster = random_raster(random, file.raster_words);
        file.add(code, spacing, raster);
    }
    give_a_dot(random, &mut file.letter_a().raster);
    file
}

fn letter_a_alone(random: &mut Random, word_width: u16) -> CuFile {
    let mut file = CuFile::new(3, word_width);
    let mut raster = random_raster(random, file.raster_words);
    give_a_dot(random, &mut raster);
    file.add(LETTER_A, random_spacing(random), raster);
    file
}

/// Every number at its greatest: its columns and its length are too many.
fn of_the_greatest_size(_: &mut Random) -> CuFile {
    let mut file = CuFile::new(128, 16);
    for code in 0..=255 {
        file.add_filled(code, 255, 256);
    }
    file
}

/// A file of exactly 65,536 bytes, the most that the program reads.
pub fn file_of_most_bytes(random: &mut Random) -> CuFile {
    let mut file = CuFile::new(16, 16);
    for code in 0..127 {
        let columns = random.below(3) + 1;
        file.add_filled(code, random_spacing(random), columns);
    }
    random.shuffle(&mut file.characters);
    file
}

/// Files whose output is about as long as the program's can be. With 240 columns in its
/// first character and 128 codes the output has 32768 words, the most; with more of either
/// it has more.
pub fn file_of_most_output(first_width: usize, codes: u16) -> CuFile {
    file_with_one_narrow_character(16, 125, first_width, codes)
}

/// An odd number of words: with 243 codes 32767, and with 244 one too many.
pub fn file_of_odd_output(codes: u16) -> CuFile {
    file_with_one_narrow_character(15, 133, 112, codes)
}

/// All other characters fill the raster's 256 columns. The last code stands apart from the
/// others, as far as the number of codes says.
fn file_with_one_narrow_character(
    height: u16,
    others: u16,
    first_width: usize,
    codes: u16,
) -> CuFile {
    let first_code = 10;
    let mut file = CuFile::new(height, 16);
    file.add_filled(first_code, 7, first_width);
    for code in 1..others {
        file.add_filled(first_code + code, 7, 256);
    }
    file.add_filled(first_code + codes - 1, 7, 256);
    file
}
