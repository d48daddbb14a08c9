//! Font files: good ones, ones at a limit and one past it, and damaged ones.

mod damage;
mod index;
mod limits;
mod parts;

use super::random::Random;
use damage::{damage_format, edge_word, last_pointer_past_the_raster, DAMAGES};
use index::{index_of_too_many_bodies, index_without_a_picture};
use limits::{kerned_without_dummy, plain_without_blob, LIMITS};
use parts::{good_parts, overlapping_parts};

#[cfg(test)]
pub use index::index_wrong_from;
pub use index::{any_index, good_index, refused_index};

/// The words of a font and the numbers that calls on it are aimed by. A damaged font keeps
/// the numbers of the good one that it was.
pub struct MadeFont {
    pub words: Vec<u16>,
    pub min: i64,
    pub max: i64,
    /// Of one of the bodies.
    pub ascent: i64,
    pub height: i64,
    /// The heights of all bodies; a strike has one.
    pub body_heights: Vec<i64>,
    /// FBBox, or 0 for a plain font: where pictures lie beside the pen.
    pub left: i64,
}

/// A font of any sort; the number chooses the sort.
pub fn any_font(random: &mut Random, number: usize) -> MadeFont {
    let turn = number / 8;
    match number % 8 {
        0 => font_at_limit(random, turn),
        1 => damaged_once(random, turn),
        2 => damaged_often(random),
        3 => wrongly_long(random, turn),
        4 => with_a_random_word(random),
        5 => any_index(random, turn),
        _ => good_font(random),
    }
}

/// Of all four kinds.
pub fn good_font(random: &mut Random) -> MadeFont {
    match random.below(16) {
        0..=3 => good_index(random),
        4..=6 => overlapping_font(random),
        _ => good_parts(random).made(),
    }
}

/// A kerned font whose characters lie over one another.
pub fn overlapping_font(random: &mut Random) -> MadeFont {
    overlapping_parts(random).made()
}

/// A plain font whose dummy has no columns.
pub fn font_without_blob(random: &mut Random) -> MadeFont {
    plain_without_blob(random).made()
}

/// A font that is refused for each of 1 to 7, 15 and 16 in turn.
pub fn refused_font(random: &mut Random, turn: usize) -> MadeFont {
    let mut parts = good_parts(random);
    match turn % 11 {
        0 => return cut_to(parts.made(), random.below(9)),
        1 => damage_format(random, &mut parts),
        2 => parts.max = 256,
        3 => parts.xoffset = 1,
        4 => parts.length = parts.length.wrapping_add(1),
        5 => last_pointer_past_the_raster(random, &mut parts),
        6 => return kerned_without_dummy(random).made(),
        7 => return index_of_too_many_bodies(random),
        8 => return index_without_a_picture(random),
        9 => return refused_index(random, turn / 11),
        _ => return damaged_often(random),
    }
    parts.made()
}

/// A font at a limit of the reader or one past it.
pub fn font_at_limit(random: &mut Random, turn: usize) -> MadeFont {
    let limit = LIMITS[turn % LIMITS.len()];
    limit(random).made()
}

fn damaged_once(random: &mut Random, turn: usize) -> MadeFont {
    let mut parts = good_parts(random);
    let damage = DAMAGES[turn % DAMAGES.len()];
    damage(random, &mut parts);
    parts.made()
}

/// Several faults at once show the order of the tests.
fn damaged_often(random: &mut Random) -> MadeFont {
    let mut parts = good_parts(random);
    for _ in 0..random.between(2, 4) {
        let damage = random.pick(&DAMAGES);
        damage(random, &mut parts);
    }
    let mut font = parts.made();
    if random.one_in(4) {
        let length = random.below(font.words.len() + 1);
        font = cut_to(font, length);
    }
    font
}

fn wrongly_long(random: &mut Random, turn: usize) -> MadeFont {
    let mut parts = good_parts(random);
    if random.one_in(3) {
        damage_format(random, &mut parts);
    }
    let mut font = parts.made();
    let length = font.words.len();
    match turn % 10 {
        0 => font.words.push(random.word()),
        1 => font = cut_to(font, length - 1),
        case => font = cut_to(font, [0, 1, 2, 8, 9, 10, 12, 13][case - 2]),
    }
    font
}

fn with_a_random_word(random: &mut Random) -> MadeFont {
    let mut font = good_font(random);
    let place = if random.one_in(2) {
        random.below(13.min(font.words.len()))
    } else {
        random.below(font.words.len())
    };
    font.words[place] = edge_word(random, font.words[place]);
    font
}

fn cut_to(mut font: MadeFont, length: usize) -> MadeFont {
    font.words.truncate(length);
    font
}
