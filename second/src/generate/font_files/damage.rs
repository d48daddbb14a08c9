//! Ways to damage a font file.

use super::parts::Parts;
use crate::bits::two_complement_word;
use crate::generate::random::Random;

/// Ways to damage one word of a good file.
pub const DAMAGES: [fn(&mut Random, &mut Parts); 15] = [
    damage_format,
    damage_codes,
    damage_heights,
    damage_raster,
    damage_fbbox,
    |random, parts| parts.xoffset = random.pick(&[1, 256, 65_535]),
    |random, parts| parts.length = edge_word(random, parts.length),
    |random, parts| damage_one_word(random, parts, Table::Pointers),
    |random, parts| damage_one_word(random, parts, Table::Entries),
    pointer_that_decreases,
    last_pointer_past_the_raster,
    absent_dummy,
    bare_dummy,
    lengthen_or_shorten,
    words_that_the_reader_passes_over,
];

pub fn damage_format(random: &mut Random, parts: &mut Parts) {
    let flipped = random.pick(&[0x8000, 0x0800, 0x0001, 0x0010, 0xC000, 0x4FFF]);
    parts.format ^= flipped;
}

fn damage_codes(random: &mut Random, parts: &mut Parts) {
    match random.below(5) {
        0 => parts.min = parts.max.wrapping_add(1),
        1 => parts.max = 256,
        2 => parts.max = 65_535,
        3 => parts.min = 65_535,
        _ => parts.format ^= 0x1000,
    }
}

fn damage_heights(random: &mut Random, parts: &mut Parts) {
    let height = random.pick(&[0, 1, 255, 256, 257, 32_768, 65_535]);
    if random.one_in(2) {
        parts.ascent = height;
    } else {
        parts.descent = height;
    }
}

fn damage_raster(random: &mut Random, parts: &mut Parts) {
    parts.raster = random.pick(&[0, 1, 4_096, 4_097, 65_535]);
}

fn damage_fbbox(random: &mut Random, parts: &mut Parts) {
    let fbbox = random.pick(&[-32_768, -257, -256, -255, 0, 255, 256, 32_767]);
    parts.bounding_box[0] = two_complement_word(fbbox);
}

enum Table {
    Pointers,
    Entries,
}

fn damage_one_word(random: &mut Random, parts: &mut Parts, table: Table) {
    let words = match table {
        Table::Pointers => &mut parts.pointers,
        Table::Entries => &mut parts.entries,
    };
    let place = random.below(words.len());
    words[place] = edge_word(random, words[place]);
}

fn pointer_that_decreases(random: &mut Random, parts: &mut Parts) {
    let place = 1 + random.below(parts.pointers.len() - 1);
    let before = parts.pointers[place - 1];
    parts.pointers[place - 1] = before.saturating_add(1);
    parts.pointers[place] = before;
}

pub fn last_pointer_past_the_raster(_: &mut Random, parts: &mut Parts) {
    let last = parts.pointers.len() - 1;
    parts.pointers[last] = parts.columns().saturating_add(1);
}

/// A plain file has no entries, and stays as it is.
pub fn absent_dummy(_: &mut Random, parts: &mut Parts) {
    let last = parts.entries.len() - 1;
    parts.entries[last] = 0xFFFF;
}

/// Takes the dummy's columns, for which no file is refused.
pub fn bare_dummy(_: &mut Random, parts: &mut Parts) {
    let last = parts.pointers.len() - 1;
    parts.pointers[last] = parts.pointers[last - 1];
}

/// Makes the bitmap a word longer or shorter than the header says.
fn lengthen_or_shorten(random: &mut Random, parts: &mut Parts) {
    if random.one_in(2) {
        parts.bitmap.push(random.word());
    } else {
        parts.bitmap.pop();
    }
}

fn words_that_the_reader_passes_over(random: &mut Random, parts: &mut Parts) {
    parts.maxwidth = random.word();
    for word in &mut parts.bounding_box[1..] {
        *word = random.word();
    }
    parts.format ^= 0x2000;
}

/// A word near the one before, or at an end of some range.
pub fn edge_word(random: &mut Random, before: u16) -> u16 {
    let edges = [
        0, 1, 255, 256, 257, 4096, 4097, 32767, 32768, 65279, 65280, 65535,
    ];
    match random.below(4) {
        0 => before.wrapping_add(1),
        1 => before.wrapping_sub(1),
        2 => random.word(),
        _ => random.pick(&edges),
    }
}
