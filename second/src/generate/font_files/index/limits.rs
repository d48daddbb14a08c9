//! Index files at the limits of the reader.

use super::parts::{map_entry, small_parts, tiny_body, BodyParts, IndexParts, MISSING};
use crate::bits::two_complement_word;
use crate::generate::random::Random;

/// Files that agree with their own sums, at each limit of the reader and one past it.
pub const LIMITS: [fn(&mut Random) -> IndexParts; 51] = [
    |random| body_count(random, 0),
    |random| body_count(random, 1),
    |random| body_count(random, 127),
    |random| body_count(random, 128),
    |random| body_count(random, 129),
    |random| body_count(random, 65_535),
    |random| codes(random, 9, 8),
    |random| codes(random, 255, 255),
    |random| codes(random, 250, 256),
    |random| codes(random, 0, 0),
    |random| codes(random, 0, 255),
    |random| codes(random, 65_535, 65_535),
    |random| fbbox(random, -255),
    |random| fbbox(random, -256),
    |random| fbbox(random, 255),
    |random| fbbox(random, 256),
    |random| height(random, 0, 0),
    |random| height(random, 1, 0),
    |random| height(random, 0, 1),
    |random| height(random, 256, 0),
    |random| height(random, 100, 156),
    |random| height(random, 0, 257),
    |random| height_that_wraps(random, 65_535, 2),
    |random| height_that_wraps(random, 32_768, 32_769),
    |random| raster(random, 0),
    |random| raster(random, 1),
    |random| raster(random, 4_096),
    |random| raster(random, 4_097),
    |random| pointers_left(random, 0),
    |random| pointers_left(random, 1),
    |random| pointers_left(random, 2),
    |random| pointers_left(random, 257),
    |random| pointers_left(random, 258),
    |random| pointers_left(random, 700),
    greatest_length,
    length_that_wraps,
    sum_past_sixteen_bits,
    no_bodies_behind_the_map,
    |random| cut_in_the_last_body(random, 4),
    |random| cut_in_the_last_body(random, 5),
    |random| last_pointer(random, 0),
    |random| last_pointer(random, 1),
    one_word_too_many,
    one_word_too_few,
    last_picture,
    code_past_the_last_pair,
    body_past_the_last,
    absent_by_width_and_names_nothing,
    |random| absent_dummy(random, false),
    |random| absent_dummy(random, true),
    dummy_without_columns,
];

/// Lengths at which a test finds too few words.
pub const CUTS: [fn(&IndexParts) -> usize; 10] = [
    |_| 8,
    |_| 9,
    |_| 12,
    |_| 13,
    |parts| parts.words_before_bodies() - 1,
    IndexParts::words_before_bodies,
    |parts| parts.words_before_bodies() + 4,
    |parts| parts.words_before_bodies() + 5,
    |parts| parts.words_before_bodies() + usize::from(parts.bodies[0].length),
    |parts| parts.words_before_bodies() + usize::from(parts.bodies[0].length) + 5,
];

/// As many bodies as the count says, or one where they would be too many for a file.
pub fn body_count(random: &mut Random, count: u16) -> IndexParts {
    let bodies = match count {
        0..=129 => (0..count.max(1)).map(|_| tiny_body(random)).collect(),
        _ => vec![tiny_body(random)],
    };
    let kerned = random.one_in(2);
    let mut parts = IndexParts::of_bodies(random, kerned, (65, 69), bodies);
    if count >= 127 && parts.bodies.len() >= 127 {
        // The greatest body that an entry can name, and the last.
        parts.map[0] = map_entry(parts.bodies.len().min(128) - 1, 0);
    }
    if count == 0 {
        parts.bodies.clear();
    }
    parts.body_count = count;
    parts
}

fn codes(random: &mut Random, min: i64, max: i64) -> IndexParts {
    let kerned = random.one_in(2);
    let bodies = vec![tiny_body(random), tiny_body(random)];
    let mut parts = IndexParts::of_bodies(random, kerned, (65, 65 + (max - min).max(0)), bodies);
    (parts.min, parts.max) = (min as u16, max as u16);
    parts
}

fn fbbox(random: &mut Random, fbbox: i64) -> IndexParts {
    let mut parts = small_parts(random);
    while !parts.kerned {
        parts = small_parts(random);
    }
    parts.bounding_box[0] = two_complement_word(fbbox);
    parts
}

/// A small file with one of its bodies exchanged for this one, which must have a picture for each
/// that the map names.
fn with_body(random: &mut Random, body: BodyParts) -> IndexParts {
    let mut bodies = vec![tiny_body(random), tiny_body(random)];
    let place = random.below(2);
    bodies[place] = body;
    let kerned = random.one_in(2);
    let min = random.between(0, 240);
    let max = min + random.between(0, 6);
    IndexParts::of_bodies(random, kerned, (min, max), bodies)
}

fn height(random: &mut Random, ascent: i64, descent: i64) -> IndexParts {
    let body = BodyParts::spread(random, ascent, descent, 1, 3);
    with_body(random, body)
}

/// A file that would be in order if ascent and descent were added in sixteen bits.
fn height_that_wraps(random: &mut Random, ascent: u16, descent: u16) -> IndexParts {
    let mut body = BodyParts::spread(random, 1, 0, 1, 2);
    (body.ascent, body.descent) = (ascent, descent);
    with_body(random, body)
}

fn raster(random: &mut Random, raster: i64) -> IndexParts {
    let body = BodyParts::spread(random, 1, 0, raster, 3);
    with_body(random, body)
}

/// With fewer than 258 the last code that a map entry can name is not there.
fn pointers_left(random: &mut Random, pointers: usize) -> IndexParts {
    let mut body = BodyParts::spread(random, 2, 1, 20, 3);
    body.pointers = (0..pointers).map(|place| place.min(320) as u16).collect();
    body.agree_in_length();
    let has_pictures = body.pictures() > 0;
    let place = random.below(2);
    let mut bodies = vec![tiny_body(random), tiny_body(random)];
    if has_pictures {
        bodies[place] = body;
        let mut parts = IndexParts::of_bodies(random, false, (65, 70), bodies);
        parts.map[2] = map_entry(place, random.pick(&[254, 255]));
        parts.map[3] = map_entry(place, (pointers - 2).min(255));
        if pointers == 2 {
            parts.map[2] = parts.map[3];
        }
        return parts;
    }
    let mut parts = IndexParts::of_bodies(random, false, (65, 70), bodies);
    parts.bodies[place] = body;
    parts
}

/// A body of 65,535 words.
fn greatest_length(random: &mut Random) -> IndexParts {
    let body = BodyParts::spread(random, 200, 56, 255, 249);
    with_body(random, body)
}

/// A bitmap of 65,536 words, which sixteen bits would take for none.
fn length_that_wraps(random: &mut Random) -> IndexParts {
    let body = BodyParts::spread(random, 250, 6, 256, 3);
    with_body(random, body)
}

/// Two bodies that begin and end on either side of word 65,536.
fn sum_past_sixteen_bits(random: &mut Random) -> IndexParts {
    let first = BodyParts::spread(random, 130, 3, 255, 3);
    let second = BodyParts::spread(random, 126, 7, 255, 3);
    IndexParts::of_bodies(random, true, (65, 68), vec![first, second])
}

fn no_bodies_behind_the_map(random: &mut Random) -> IndexParts {
    let mut parts = small_parts(random);
    parts.bodies.clear();
    parts.entries.clear();
    parts
}

/// The file ends behind some of the last body's words; the body itself is as it should be.
fn cut_in_the_last_body(random: &mut Random, words: usize) -> IndexParts {
    let mut parts = small_parts(random);
    if let Some(last) = parts.bodies.pop() {
        let head = [
            last.length,
            last.ascent,
            last.descent,
            last.xoffset,
            last.raster,
        ];
        parts.entries = head[..words].to_vec();
        parts.left_over = Vec::new();
        if !parts.kerned {
            parts.left_over = std::mem::take(&mut parts.entries);
        }
    }
    parts
}

fn last_pointer(random: &mut Random, past: u16) -> IndexParts {
    let mut parts = small_parts(random);
    let place = random.below(parts.bodies.len());
    let body = &mut parts.bodies[place];
    let last = body.pointers.len() - 1;
    body.pointers[last] = 16 * body.raster + past;
    parts
}

fn one_word_too_many(random: &mut Random) -> IndexParts {
    let mut parts = small_parts(random);
    parts.left_over.push(random.word());
    parts
}

fn one_word_too_few(random: &mut Random) -> IndexParts {
    let mut parts = small_parts(random);
    if parts.kerned {
        parts.entries.pop();
    } else if let Some(body) = parts.bodies.last_mut() {
        body.pointers.pop();
    }
    parts
}

/// The last picture of the last body, for a code and for the dummy.
fn last_picture(random: &mut Random) -> IndexParts {
    let mut parts = small_parts(random);
    let body = parts.bodies.len() - 1;
    let picture = map_entry(body, parts.bodies[body].pictures() - 1);
    let dummy = parts.map.len() - 1;
    parts.map[0] = picture;
    parts.map[dummy] = picture;
    parts
}

/// Present in the dummy's entry or another, and one past the last picture of a body.
pub fn code_past_the_last_pair(random: &mut Random) -> IndexParts {
    let mut parts = small_parts(random);
    let body = random.below(parts.bodies.len());
    let nothing = map_entry(body, parts.bodies[body].pictures());
    name_by_a_present_code(random, &mut parts, nothing);
    parts
}

fn body_past_the_last(random: &mut Random) -> IndexParts {
    let mut parts = small_parts(random);
    let nothing = map_entry(parts.bodies.len(), 0);
    name_by_a_present_code(random, &mut parts, nothing);
    parts
}

fn name_by_a_present_code(random: &mut Random, parts: &mut IndexParts, entry: u16) {
    let place = random.below(parts.map.len());
    parts.map[place] = entry;
    parts.entries[place] &= 0xFFFE;
}

fn absent_by_width_and_names_nothing(random: &mut Random) -> IndexParts {
    let mut parts = fbbox(random, -2);
    parts.map[0] = map_entry(127, 255);
    parts.entries[0] = 0xFFFF;
    parts
}

/// By the map or, where the file has one, by the width entry; sometimes another code names
/// nothing, for which the file is refused first.
fn absent_dummy(random: &mut Random, by_width: bool) -> IndexParts {
    let mut parts = fbbox(random, 2);
    let dummy = parts.map.len() - 1;
    if by_width {
        parts.entries[dummy] = 0xFFFF;
    } else {
        parts.map[dummy] |= MISSING;
    }
    if random.one_in(3) {
        parts.map[0] = map_entry(parts.bodies.len(), 0);
        parts.entries[0] &= 0xFFFE;
    }
    parts
}

fn dummy_without_columns(random: &mut Random) -> IndexParts {
    let mut parts = small_parts(random);
    let mut empty = BodyParts::spread(random, 3, 0, 1, 1);
    empty.pointers = vec![4, 4];
    parts.bodies.push(empty);
    parts.body_count += 1;
    let dummy = parts.map.len() - 1;
    parts.map[dummy] = map_entry(parts.bodies.len() - 1, 0);
    parts
}
