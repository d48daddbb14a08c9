//! The parts of a font file, and good files made of them.

use super::MadeFont;
use crate::bits::{signed, two_complement_word};
use crate::generate::random::Random;

/// The parts of a file, each of which may be altered before they become words.
pub struct Parts {
    pub kerned: bool,
    pub format: u16,
    pub min: u16,
    pub max: u16,
    pub maxwidth: u16,
    pub bounding_box: [u16; 4],
    pub length: u16,
    pub ascent: u16,
    pub descent: u16,
    pub xoffset: u16,
    pub raster: u16,
    pub bitmap: Vec<u16>,
    pub pointers: Vec<u16>,
    pub entries: Vec<u16>,
}

/// The numbers that decide how long the parts are.
#[derive(Clone, Copy)]
pub struct Sizes {
    pub kerned: bool,
    pub min: i64,
    pub max: i64,
    pub ascent: i64,
    pub descent: i64,
    pub raster: i64,
}

impl Sizes {
    fn codes(&self) -> i64 {
        self.max - self.min + 1
    }

    fn height(&self) -> i64 {
        self.ascent + self.descent
    }

    fn bitmap_words(&self) -> usize {
        (self.raster * self.height()) as usize
    }
}

impl Parts {
    /// A file whose sums agree, with its pictures spread over all the columns. The sizes
    /// need not be allowed ones.
    pub fn of_sizes(random: &mut Random, sizes: Sizes) -> Parts {
        let codes = sizes.codes();
        let body_length = sizes.raster * sizes.height() + codes + 7;
        Parts {
            kerned: sizes.kerned,
            format: random_format(random, sizes.kerned),
            min: two_complement_word(sizes.min),
            max: two_complement_word(sizes.max),
            maxwidth: random.pick(&[0, 7, 255, 256, 65535]),
            bounding_box: random_bounding_box(random),
            length: two_complement_word(body_length),
            ascent: two_complement_word(sizes.ascent),
            descent: two_complement_word(sizes.descent),
            xoffset: 0,
            raster: two_complement_word(sizes.raster),
            bitmap: random_bitmap(random, sizes.bitmap_words()),
            pointers: spread_pointers(codes, 16 * sizes.raster),
            entries: random_entries(random, codes),
        }
    }

    pub fn made(&self) -> MadeFont {
        MadeFont {
            words: self.words(),
            min: i64::from(self.min),
            max: i64::from(self.max),
            ascent: i64::from(self.ascent),
            height: i64::from(self.ascent) + i64::from(self.descent),
            body_heights: vec![i64::from(self.ascent) + i64::from(self.descent)],
            left: if self.kerned {
                signed(self.bounding_box[0])
            } else {
                0
            },
        }
    }

    fn words(&self) -> Vec<u16> {
        let mut words = vec![self.format, self.min, self.max, self.maxwidth];
        if self.kerned {
            words.extend(self.bounding_box);
        }
        let body_head = [
            self.length,
            self.ascent,
            self.descent,
            self.xoffset,
            self.raster,
        ];
        words.extend(body_head);
        words.extend(&self.bitmap);
        words.extend(&self.pointers);
        if self.kerned {
            words.extend(&self.entries);
        }
        words
    }

    pub fn columns(&self) -> u16 {
        let columns = 16 * i64::from(self.raster);
        columns.min(65_535) as u16
    }
}

pub fn good_parts(random: &mut Random) -> Parts {
    let kerned = random.below(5) < 3;
    let (min, max) = random_codes(random);
    let (ascent, descent) = random_heights(random);
    let pointers = random_pointers(random, max - min + 1);
    let slack = i64::from(random.one_in(4));
    let sizes = Sizes {
        kerned,
        min,
        max,
        ascent,
        descent,
        raster: raster_for(&pointers) + slack,
    };
    let mut parts = Parts::of_sizes(random, sizes);
    parts.pointers = pointers;
    parts
}

/// Kerned characters that lie over one another: wide pictures, spread offsets and small
/// spacings.
pub fn overlapping_parts(random: &mut Random) -> Parts {
    let min = random.between(0, 250);
    let max = min + random.between(0, 4);
    let codes = max - min + 1;
    let widths: Vec<i64> = (0..=codes).map(|_| random.between(2, 9)).collect();
    let pointers = running_sums(0, &widths);
    let sizes = Sizes {
        kerned: true,
        min,
        max,
        ascent: random.between(1, 5),
        descent: random.between(0, 3),
        raster: raster_for(&pointers),
    };
    let mut parts = Parts::of_sizes(random, sizes);
    parts.pointers = pointers;
    parts.bounding_box[0] = two_complement_word(random.between(-6, 1));
    parts.entries = (0..=codes)
        .map(|_| (random.between(0, 7) * 256 + random.between(0, 1)) as u16)
        .collect();
    parts
}

pub fn random_format(random: &mut Random, kerned: bool) -> u16 {
    let fixed = if random.one_in(2) { 0x2000 } else { 0 };
    let kerned = if kerned { 0x1000 } else { 0 };
    0x8000 | fixed | kerned
}

fn random_codes(random: &mut Random) -> (i64, i64) {
    let few = random.between(0, 6);
    match random.below(16) {
        0 => (0, 255),
        1 => (0, few),
        2 => (255 - few, 255),
        3 | 4 => {
            let only = random.between(0, 255);
            (only, only)
        }
        _ => {
            let min = random.between(0, 249);
            (min, min + few)
        }
    }
}

fn random_heights(random: &mut Random) -> (i64, i64) {
    match random.below(14) {
        0 => (0, random.between(1, 8)),
        1 => (random.between(1, 8), 0),
        2 => (1, 0),
        3 => {
            let ascent = random.between(0, 256);
            (ascent, 256 - ascent)
        }
        _ => (random.between(1, 7), random.between(0, 4)),
    }
}

/// One pointer for each code from min to max + 2, from widths that are often small. Some dummies
/// have no columns.
fn random_pointers(random: &mut Random, codes: i64) -> Vec<u16> {
    let widest = if codes > 20 { 3 } else { 7 };
    let mut widths: Vec<i64> = (0..codes).map(|_| random_width(random, widest)).collect();
    let dummy = if random.one_in(6) {
        0
    } else {
        random.between(1, 7)
    };
    widths.push(dummy);
    let first = if random.one_in(6) {
        random.between(1, 20)
    } else {
        0
    };
    running_sums(first, &widths)
}

pub fn random_width(random: &mut Random, widest: i64) -> i64 {
    match random.below(8) {
        0 | 1 => 0,
        2 if widest > 3 => random.between(1, 24),
        _ => random.between(1, widest),
    }
}

pub fn running_sums(first: i64, widths: &[i64]) -> Vec<u16> {
    let mut sum = first;
    let mut sums = vec![first as u16];
    for width in widths {
        sum += width;
        sums.push(sum as u16);
    }
    sums
}

pub fn raster_for(pointers: &[u16]) -> i64 {
    let columns = i64::from(pointers[pointers.len() - 1]);
    ((columns + 15) / 16).max(1)
}

/// n + 2 pointers from 0 up to the last column that a word can name.
pub fn spread_pointers(codes: i64, columns: i64) -> Vec<u16> {
    let last = columns.min(65_535);
    (0..codes + 2)
        .map(|place| (last * place / (codes + 1)) as u16)
        .collect()
}

pub fn random_bitmap(random: &mut Random, words: usize) -> Vec<u16> {
    let style = random.below(5);
    if words > 300 {
        return speckled(random, words);
    }
    (0..words)
        .map(|_| match style {
            0 => 0xFFFF,
            1 => random.word() & random.word() & random.word(),
            2 => random.word() | random.word(),
            _ => random.word(),
        })
        .collect()
}

/// A large bitmap in few fields: long runs with some other words between them. Both bytes of
/// the run's word are equal, so that the file is short in bytes too.
fn speckled(random: &mut Random, words: usize) -> Vec<u16> {
    let ground = 257 * u16::from(random.byte());
    let mut bitmap = vec![ground; words];
    for _ in 0..12 {
        let place = random.below(words);
        bitmap[place] = random.word();
    }
    bitmap
}

/// One entry for each code from min to max, and the dummy's, which is never absent here.
pub fn random_entries(random: &mut Random, codes: i64) -> Vec<u16> {
    let mut entries: Vec<u16> = (0..codes).map(|_| random_entry(random)).collect();
    entries.push(random_entry(random) & 0xFFFE);
    entries
}

fn random_entry(random: &mut Random) -> u16 {
    match random.below(12) {
        0 | 1 => 0xFFFF,
        2 => random.pick(&[0x0000, 0xFF00, 0x00FF, 0xFFFE, 0xFEFF, 0xFF01]),
        _ => (random.between(0, 6) * 256 + random.between(0, 9)) as u16,
    }
}

pub fn random_bounding_box(random: &mut Random) -> [u16; 4] {
    let fbbox = match random.below(6) {
        0 => random.pick(&[-255, -254, 0, 254, 255]),
        _ => random.between(-5, 5),
    };
    [
        two_complement_word(fbbox),
        random.word(),
        random.word(),
        random.word(),
    ]
}
