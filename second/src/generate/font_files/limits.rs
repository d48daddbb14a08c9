//! Font files at the limits of the reader.

use super::damage::{absent_dummy, bare_dummy, last_pointer_past_the_raster};
use super::parts::{good_parts, Parts, Sizes};
use crate::bits::two_complement_word;
use crate::generate::random::Random;

/// Files that agree with their own sums, at each limit of the reader and one past it.
pub const LIMITS: [fn(&mut Random) -> Parts; 35] = [
    |random| limit_of_codes(random, 9, 8),
    |random| limit_of_codes(random, 256, 255),
    |random| limit_of_codes(random, 250, 255),
    |random| limit_of_codes(random, 250, 256),
    |random| limit_of_codes(random, 256, 256),
    |random| limit_of_codes(random, 65_535, 65_535),
    |random| limit_of_codes(random, 0, 0),
    |random| limit_of_codes(random, 0, 255),
    |random| limit_of_height(random, 0, 0),
    |random| limit_of_height(random, 1, 0),
    |random| limit_of_height(random, 0, 1),
    |random| limit_of_height(random, 256, 0),
    |random| limit_of_height(random, 100, 156),
    |random| limit_of_height(random, 0, 257),
    |random| limit_of_height(random, 257, 0),
    |random| height_that_wraps(random, 65_535, 2),
    |random| height_that_wraps(random, 32_768, 32_769),
    |random| limit_of_raster(random, 0),
    |random| limit_of_raster(random, 1),
    |random| limit_of_raster(random, 4_095),
    |random| limit_of_raster(random, 4_096),
    |random| limit_of_raster(random, 4_097),
    |random| limit_of_fbbox(random, -255),
    |random| limit_of_fbbox(random, -256),
    |random| limit_of_fbbox(random, 255),
    |random| limit_of_fbbox(random, 256),
    |random| limit_of_fbbox(random, 32_768),
    last_pointer_at_the_raster,
    |random| altered(random, last_pointer_past_the_raster),
    kerned_without_dummy,
    plain_without_blob,
    |random| limit_of_length(random, 248),
    |random| limit_of_length(random, 249),
    |random| limit_of_length(random, 1),
    length_that_wraps,
];

fn small_sizes(random: &mut Random) -> Sizes {
    let min = random.between(0, 250);
    Sizes {
        kerned: random.one_in(2),
        min,
        max: min + random.between(0, 5),
        ascent: random.between(1, 4),
        descent: random.between(0, 3),
        raster: random.between(1, 3),
    }
}

/// Changes nothing else, so that no other test can refuse the file.
fn limit_of_codes(random: &mut Random, min: i64, max: i64) -> Parts {
    let mut sizes = small_sizes(random);
    (sizes.min, sizes.max) = (min, max);
    if max - min > 40 {
        sizes.raster = 20;
    }
    Parts::of_sizes(random, sizes)
}

fn limit_of_height(random: &mut Random, ascent: i64, descent: i64) -> Parts {
    let mut sizes = small_sizes(random);
    (sizes.ascent, sizes.descent) = (ascent, descent);
    Parts::of_sizes(random, sizes)
}

/// A file that would be in order if ascent and descent were added in sixteen bits.
fn height_that_wraps(random: &mut Random, ascent: u16, descent: u16) -> Parts {
    let mut parts = limit_of_height(random, 1, 0);
    (parts.ascent, parts.descent) = (ascent, descent);
    parts
}

fn limit_of_raster(random: &mut Random, raster: i64) -> Parts {
    let mut sizes = small_sizes(random);
    sizes.raster = raster;
    if raster > 3 {
        (sizes.ascent, sizes.descent) = (1, 0);
    }
    Parts::of_sizes(random, sizes)
}

fn limit_of_fbbox(random: &mut Random, fbbox: i64) -> Parts {
    let mut sizes = small_sizes(random);
    sizes.kerned = true;
    let mut parts = Parts::of_sizes(random, sizes);
    parts.bounding_box[0] = two_complement_word(fbbox);
    parts
}

/// With 248 codes the length word is 65535, the greatest; with more it is past that.
fn limit_of_length(random: &mut Random, codes: i64) -> Parts {
    let sizes = Sizes {
        kerned: random.one_in(2),
        min: 0,
        max: codes - 1,
        ascent: 200,
        descent: 56,
        raster: 255,
    };
    Parts::of_sizes(random, sizes)
}

/// A bitmap of 65536 words, which sixteen bits would take for none.
fn length_that_wraps(random: &mut Random) -> Parts {
    let mut sizes = small_sizes(random);
    (sizes.ascent, sizes.descent, sizes.raster) = (250, 6, 256);
    Parts::of_sizes(random, sizes)
}

fn last_pointer_at_the_raster(random: &mut Random) -> Parts {
    let mut parts = good_parts(random);
    let last = parts.pointers.len() - 1;
    parts.pointers[last] = parts.columns();
    parts
}

/// Only a kerned file is refused for its dummy.
pub fn kerned_without_dummy(random: &mut Random) -> Parts {
    let mut sizes = small_sizes(random);
    sizes.kerned = true;
    altered_from(random, sizes, absent_dummy)
}

pub fn plain_without_blob(random: &mut Random) -> Parts {
    let mut sizes = small_sizes(random);
    sizes.kerned = false;
    altered_from(random, sizes, bare_dummy)
}

fn altered(random: &mut Random, damage: fn(&mut Random, &mut Parts)) -> Parts {
    let sizes = small_sizes(random);
    altered_from(random, sizes, damage)
}

fn altered_from(random: &mut Random, sizes: Sizes, damage: fn(&mut Random, &mut Parts)) -> Parts {
    let mut parts = Parts::of_sizes(random, sizes);
    damage(random, &mut parts);
    parts
}
