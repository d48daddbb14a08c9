//! Ways to damage an index file.

use super::parts::{map_entry, IndexParts, MISSING};
use crate::bits::two_complement_word;
use crate::generate::font_files::damage::edge_word;
use crate::generate::random::Random;

type Damage = fn(&mut Random, &mut IndexParts);

/// One fault for each test of the reader, in the order of the tests, for a file of three bodies. A
/// fault leaves alone what the tests before it look at.
pub const FAULTS: [Damage; 15] = [
    |random, parts| parts.format ^= random.pick(&[0x8000, 0x0800, 0x0010, 0x0001]),
    wrong_codes,
    |random, parts| parts.body_count = random.pick(&[0, 129, 255, 256, 65_535]),
    |random, parts| {
        let fbbox = random.pick(&[-32_768, -256, 256, 32_767]);
        parts.bounding_box[0] = two_complement_word(fbbox);
    },
    |random, parts| wrong_size(random, parts, 0),
    |random, parts| too_short_a_length(random, parts, 0),
    |random, parts| wrong_pointer(random, parts, 0),
    |random, parts| wrong_size(random, parts, 1),
    |random, parts| too_short_a_length(random, parts, 1),
    |random, parts| wrong_pointer(random, parts, 1),
    too_long_a_last_length,
    |random, parts| parts.left_over = vec![random.word()],
    wrong_last_pointer,
    names_nothing,
    absent_dummy,
];

/// The faults from one on, all at once.
pub fn wrong_from(random: &mut Random, first: usize, parts: &mut IndexParts) {
    for fault in &FAULTS[first..] {
        fault(random, parts);
    }
}

/// Ways to damage one part of a good file. Some leave it a good one.
pub const DAMAGES: [Damage; 19] = [
    FAULTS[0],
    |_, parts| parts.format ^= 0x4000,
    |_, parts| parts.format ^= 0x1000,
    wrong_codes,
    |random, parts| parts.body_count = edge_word(random, parts.body_count),
    |random, parts| parts.body_count = random.pick(&[0, 1, 2, 127, 128, 129, 65_535]),
    FAULTS[3],
    |random, parts| {
        let body = random.below(parts.bodies.len());
        wrong_size(random, parts, body);
    },
    |random, parts| {
        let body = random.below(parts.bodies.len());
        too_short_a_length(random, parts, body);
    },
    |random, parts| {
        let body = random.below(parts.bodies.len());
        let length = &mut parts.bodies[body].length;
        *length = edge_word(random, *length);
    },
    |random, parts| {
        let body = random.below(parts.bodies.len());
        wrong_pointer(random, parts, body);
    },
    wrong_last_pointer,
    names_nothing,
    names_a_column_past_the_last,
    |random, parts| {
        let place = random.below(parts.map.len());
        parts.map[place] = edge_word(random, parts.map[place]);
    },
    absent_dummy,
    lengthen_or_shorten,
    one_body_more_or_fewer,
    words_that_the_reader_passes_over,
];

fn wrong_codes(random: &mut Random, parts: &mut IndexParts) {
    match random.below(4) {
        0 => parts.min = parts.max.saturating_add(1),
        1 => parts.max = 256,
        2 => parts.max = 65_535,
        _ => parts.min = 65_535,
    }
}

fn wrong_size(random: &mut Random, parts: &mut IndexParts, body: usize) {
    let body = &mut parts.bodies[body];
    match random.below(6) {
        0 => (body.ascent, body.descent) = (0, 0),
        1 => body.ascent = 257,
        2 => (body.ascent, body.descent) = (65_535, 2),
        3 => body.raster = 0,
        4 => body.raster = random.pick(&[4_097, 65_535]),
        _ => body.xoffset = random.pick(&[1, 256, 65_535]),
    }
}

/// One pointer left, none, or less than nothing.
fn too_short_a_length(random: &mut Random, parts: &mut IndexParts, body: usize) {
    let body = &mut parts.bodies[body];
    let before_pointers = (5 + body.bitmap.len()) as u16;
    body.length = random.pick(&[before_pointers + 1, before_pointers, 5, 1, 0]);
}

/// By two words at least, for one would be made good by a word left over.
fn too_long_a_last_length(random: &mut Random, parts: &mut IndexParts) {
    if let Some(body) = parts.bodies.last_mut() {
        body.length = random.pick(&[body.length.saturating_add(2), 32_768, 65_535]);
    }
}

/// The first pointer is greater than the second.
fn wrong_pointer(random: &mut Random, parts: &mut IndexParts, body: usize) {
    let pointers = &mut parts.bodies[body].pointers;
    if random.one_in(2) {
        pointers[0] = pointers[1].saturating_add(1);
    } else {
        pointers[0] = 65_535;
        pointers[1] = 0;
    }
}

fn wrong_last_pointer(random: &mut Random, parts: &mut IndexParts) {
    if let Some(body) = parts.bodies.last_mut() {
        let last = body.pointers.len() - 1;
        let past = body.raster.saturating_mul(16).saturating_add(1);
        body.pointers[last] = random.pick(&[past, 65_535]);
    }
}

/// The first code becomes present, and its body is not there.
fn names_nothing(random: &mut Random, parts: &mut IndexParts) {
    let body = parts.bodies.len().min(127);
    parts.map[0] = map_entry(random.pick(&[body, body, 127]), 0);
    parts.entries[0] &= 0xFFFE;
}

/// One past the last picture, in the dummy's entry or another.
fn names_a_column_past_the_last(random: &mut Random, parts: &mut IndexParts) {
    let body = random.below(parts.bodies.len().min(128));
    let code = parts.bodies[body].pictures().min(255);
    let place = random.below(parts.map.len());
    parts.map[place] = map_entry(body, code);
}

fn absent_dummy(random: &mut Random, parts: &mut IndexParts) {
    let last = parts.map.len() - 1;
    if parts.kerned && random.one_in(2) {
        parts.entries[last] = 0xFFFF;
    } else {
        parts.map[last] |= MISSING;
    }
}

/// A bitmap becomes a word longer or shorter than its body says.
fn lengthen_or_shorten(random: &mut Random, parts: &mut IndexParts) {
    let body = random.below(parts.bodies.len());
    let bitmap = &mut parts.bodies[body].bitmap;
    if random.one_in(2) {
        bitmap.push(random.word());
    } else {
        bitmap.pop();
    }
}

/// With the count that was right before.
fn one_body_more_or_fewer(random: &mut Random, parts: &mut IndexParts) {
    if random.one_in(2) {
        let again = parts.bodies[0].clone();
        parts.bodies.push(again);
    } else if parts.bodies.len() > 1 {
        parts.bodies.pop();
    }
}

fn words_that_the_reader_passes_over(random: &mut Random, parts: &mut IndexParts) {
    parts.maxwidth = random.word();
    parts.maxascent = random.word();
    parts.maxdescent = random.word();
    for word in &mut parts.bounding_box[1..] {
        *word = random.word();
    }
    parts.format ^= 0x2000;
}
