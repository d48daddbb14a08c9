//! The parts of an index file, and good files made of them.

use crate::bits::signed;
use crate::generate::font_files::parts::{
    random_bitmap, random_bounding_box, random_entries, random_format, random_width, raster_for,
    running_sums, spread_pointers,
};
use crate::generate::font_files::MadeFont;
use crate::generate::random::Random;

pub const MISSING: u16 = 0x8000;
const INDEX_BIT: u16 = 0x4000;

/// The parts of a file, each of which may be altered before they become words.
pub struct IndexParts {
    pub kerned: bool,
    pub format: u16,
    pub min: u16,
    pub max: u16,
    pub maxwidth: u16,
    pub bounding_box: [u16; 4],
    pub maxascent: u16,
    pub maxdescent: u16,
    pub body_count: u16,
    /// One entry for each code from min to max, and the dummy's.
    pub map: Vec<u16>,
    pub bodies: Vec<BodyParts>,
    /// For the same codes; a plain file does not have them.
    pub entries: Vec<u16>,
    /// Words behind the last that belongs to the file.
    pub left_over: Vec<u16>,
}

#[derive(Clone)]
pub struct BodyParts {
    pub length: u16,
    pub ascent: u16,
    pub descent: u16,
    pub xoffset: u16,
    pub raster: u16,
    pub bitmap: Vec<u16>,
    pub pointers: Vec<u16>,
}

impl BodyParts {
    /// A body whose sums agree, for pointers of any number. The sizes need not be allowed ones.
    pub fn of(
        random: &mut Random,
        ascent: i64,
        descent: i64,
        raster: i64,
        pointers: Vec<u16>,
    ) -> BodyParts {
        let bitmap_words = raster * (ascent + descent);
        let length = 5 + bitmap_words + pointers.len() as i64;
        BodyParts {
            length: length as u16,
            ascent: ascent as u16,
            descent: descent as u16,
            xoffset: 0,
            raster: raster as u16,
            bitmap: random_bitmap(random, bitmap_words as usize),
            pointers,
        }
    }

    /// With so many pictures, spread over all the columns.
    pub fn spread(
        random: &mut Random,
        ascent: i64,
        descent: i64,
        raster: i64,
        pictures: i64,
    ) -> BodyParts {
        let pointers = spread_pointers(pictures - 1, 16 * raster);
        BodyParts::of(random, ascent, descent, raster, pointers)
    }

    pub fn height(&self) -> i64 {
        i64::from(self.ascent) + i64::from(self.descent)
    }

    /// How many codes of it a map entry can name.
    pub fn pictures(&self) -> usize {
        self.pointers.len().saturating_sub(1).min(256)
    }

    /// For a change of the pointers' or the bitmap's number.
    pub fn agree_in_length(&mut self) {
        self.length = (5 + self.bitmap.len() + self.pointers.len()) as u16;
    }

    fn words(&self) -> Vec<u16> {
        let mut words = vec![
            self.length,
            self.ascent,
            self.descent,
            self.xoffset,
            self.raster,
        ];
        words.extend(&self.bitmap);
        words.extend(&self.pointers);
        words
    }
}

impl IndexParts {
    /// A file whose sums agree, in which every body has at least one picture.
    pub fn of_bodies(
        random: &mut Random,
        kerned: bool,
        (min, max): (i64, i64),
        bodies: Vec<BodyParts>,
    ) -> IndexParts {
        let codes = max - min + 1;
        let entries = random_entries(random, codes);
        let mut parts = IndexParts {
            kerned,
            format: random_format(random, kerned) | INDEX_BIT,
            min: min as u16,
            max: max as u16,
            maxwidth: random.pick(&[0, 7, 255, 65_535]),
            bounding_box: random_bounding_box(random),
            maxascent: random.pick(&[0, 5, 257, 65_535]),
            maxdescent: random.pick(&[0, 2, 257, 65_535]),
            body_count: bodies.len() as u16,
            map: Vec::new(),
            bodies,
            entries,
            left_over: Vec::new(),
        };
        parts.map = parts.random_map(random, codes);
        parts
    }

    /// Calls are aimed at one of the bodies.
    pub fn made(&self, random: &mut Random) -> MadeFont {
        let heights: Vec<i64> = self.bodies.iter().map(BodyParts::height).collect();
        let aimed = random.below(heights.len().max(1));
        let ascent = self.bodies.get(aimed).map_or(0, |body| body.ascent);
        MadeFont {
            words: self.words(),
            min: i64::from(self.min),
            max: i64::from(self.max),
            ascent: i64::from(ascent),
            height: heights.get(aimed).copied().unwrap_or(0),
            body_heights: heights,
            left: if self.kerned {
                signed(self.bounding_box[0])
            } else {
                0
            },
        }
    }

    /// How many words stand before the first body.
    pub fn words_before_bodies(&self) -> usize {
        let map_start = if self.kerned { 11 } else { 7 };
        map_start + self.map.len()
    }

    fn words(&self) -> Vec<u16> {
        let mut words = vec![self.format, self.min, self.max, self.maxwidth];
        if self.kerned {
            words.extend(self.bounding_box);
        }
        words.extend([self.maxascent, self.maxdescent, self.body_count]);
        words.extend(&self.map);
        for body in &self.bodies {
            words.extend(body.words());
        }
        if self.kerned {
            words.extend(&self.entries);
        }
        words.extend(&self.left_over);
        words
    }

    /// Several codes often share a picture, some are absent, and the dummy is there.
    fn random_map(&self, random: &mut Random, codes: i64) -> Vec<u16> {
        let mut map = Vec::new();
        for place in 0..codes as usize {
            let by_its_width = self.kerned && self.entries[place] == 0xFFFF;
            let entry = match random.below(6) {
                0 => MISSING | random.word(),
                _ if by_its_width && random.one_in(2) => random.word(),
                1 | 2 if !map.is_empty() => random.pick(&map) & !MISSING,
                _ => self.random_picture(random),
            };
            let is_looked_at = entry & MISSING == 0 && !by_its_width;
            map.push(if is_looked_at && !self.names_a_picture(entry) {
                self.random_picture(random)
            } else {
                entry
            });
        }
        let shared = random.pick(&map);
        map.push(
            if random.one_in(2) && shared & MISSING == 0 && self.names_a_picture(shared) {
                shared
            } else {
                self.random_picture(random)
            },
        );
        map
    }

    /// The map entry of some picture of some body.
    pub fn random_picture(&self, random: &mut Random) -> u16 {
        let body = random.below(self.bodies.len().min(128));
        let code = random.below(self.bodies[body].pictures());
        map_entry(body, code)
    }

    fn names_a_picture(&self, entry: u16) -> bool {
        let (body, code) = (usize::from(entry / 256 % 128), usize::from(entry % 256));
        self.bodies
            .get(body)
            .map_or(false, |body| code < body.pictures())
    }
}

pub fn map_entry(body: usize, code: usize) -> u16 {
    (256 * body + code) as u16
}

pub fn good_parts(random: &mut Random) -> IndexParts {
    let kerned = random.one_in(2);
    let codes = random_codes(random);
    let bodies = match random.below(30) {
        0 => random.pick(&[127, 128]),
        1 => random.between(6, 40),
        2..=5 => 1,
        _ => random.between(2, 4),
    };
    let bodies = (0..bodies)
        .map(|_| {
            if bodies > 5 {
                tiny_body(random)
            } else {
                random_body(random)
            }
        })
        .collect();
    IndexParts::of_bodies(random, kerned, codes, bodies)
}

/// Two or three bodies and a few codes: a file whose words can be gone through.
pub fn small_parts(random: &mut Random) -> IndexParts {
    let bodies = random.between(2, 3);
    parts_of_few(random, bodies)
}

pub fn parts_of_few(random: &mut Random, bodies: i64) -> IndexParts {
    let kerned = random.one_in(2);
    let min = random.between(0, 251);
    let max = min + random.between(1, 4);
    let bodies = (0..bodies).map(|_| small_body(random)).collect();
    IndexParts::of_bodies(random, kerned, (min, max), bodies)
}

fn random_codes(random: &mut Random) -> (i64, i64) {
    let few = random.between(0, 8);
    match random.below(20) {
        0 => (0, 255),
        1 => (0, few),
        2 => (255 - few, 255),
        3 => (few, few),
        _ => {
            let min = random.between(0, 247);
            (min, min + few)
        }
    }
}

fn random_body(random: &mut Random) -> BodyParts {
    let (ascent, descent) = match random.below(16) {
        0 => (0, random.between(1, 6)),
        1 => (random.between(1, 6), 0),
        2 => (random.between(0, 200), 56),
        _ => (random.between(1, 7), random.between(0, 4)),
    };
    let pictures = match random.below(40) {
        0 => random.pick(&[255, 256, 257, 300]),
        _ => random.between(1, 5),
    };
    let widest = if pictures > 20 { 3 } else { 7 };
    let widths: Vec<i64> = (0..pictures)
        .map(|_| random_width(random, widest))
        .collect();
    let first = if random.one_in(6) {
        random.between(1, 20)
    } else {
        0
    };
    let pointers = running_sums(first, &widths);
    let slack = i64::from(random.one_in(4));
    let raster = raster_for(&pointers) + slack;
    BodyParts::of(random, ascent, descent, raster, pointers)
}

fn small_body(random: &mut Random) -> BodyParts {
    let (ascent, descent) = (random.between(1, 3), random.between(0, 2));
    let raster = random.between(1, 2);
    let pictures = random.between(1, 3);
    BodyParts::spread(random, ascent, descent, raster, pictures)
}

/// One picture in one row, above the baseline or below it.
pub fn tiny_body(random: &mut Random) -> BodyParts {
    let ascent = random.between(0, 1);
    let width = random.between(0, 6);
    let pointers = running_sums(random.between(0, 2), &[width]);
    BodyParts::of(random, ascent, 1 - ascent, 1, pointers)
}
