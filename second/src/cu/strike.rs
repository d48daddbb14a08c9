//! The KernedStrike file that a CU file becomes.

use std::collections::BTreeMap;

use super::{Character, CuFile, DotBox, Origin};
use crate::bits::{set_bit, two_complement_word};

const ABSENT: u16 = 0xFFFF;

/// The file to be written, before it is put into words.
pub struct Strike<'a> {
    file: &'a CuFile<'a>,
    origin: Origin,
    pictures: BTreeMap<i64, Picture<'a>>,
    font_box: DotBox,
}

/// A character of the file and the box of its dots, if it has any.
struct Picture<'a> {
    character: &'a Character<'a>,
    dot_box: Option<DotBox>,
}

impl Picture<'_> {
    fn columns(&self) -> i64 {
        self.dot_box.map_or(0, |dot_box| dot_box.columns())
    }

    /// The paper's BBox, which is 0 for an empty character.
    fn left(&self) -> i64 {
        self.dot_box.map_or(0, |dot_box| dot_box.left)
    }
}

impl<'a> Strike<'a> {
    pub(super) fn of(file: &'a CuFile<'a>, origin: Origin) -> Strike<'a> {
        let mut pictures = BTreeMap::new();
        // The letter A has a dot at the origin, so the font's box may begin with that dot.
        let mut font_box = DotBox::of_dot(0, 0);
        for character in &file.characters {
            let dot_box = file.dot_box(character, origin);
            if let Some(dot_box) = dot_box {
                font_box = font_box.united(dot_box);
            }
            pictures.insert(character.code, Picture { character, dot_box });
        }
        Strike {
            file,
            origin,
            pictures,
            font_box,
        }
    }

    pub fn has_spacing_that_does_not_fit(&self) -> bool {
        self.pictures.values().any(|picture| {
            let spacing = picture.character.spacing;
            spacing > 255 || (spacing == 255 && self.offset(picture) == 255)
        })
    }

    pub fn has_offset_that_does_not_fit(&self) -> bool {
        self.pictures
            .values()
            .any(|picture| self.offset(picture) > 255)
    }

    fn offset(&self, picture: &Picture) -> i64 {
        picture.left() - self.font_box.left
    }

    fn min(&self) -> i64 {
        *self.pictures.keys().next().expect("the letter A is there")
    }

    fn max(&self) -> i64 {
        *self.pictures.keys().last().expect("the letter A is there")
    }

    /// The paper's n.
    fn codes(&self) -> i64 {
        self.max() - self.min() + 1
    }

    fn height(&self) -> i64 {
        self.ascent() + self.descent()
    }

    fn ascent(&self) -> i64 {
        self.font_box.rows() + self.font_box.bottom
    }

    fn descent(&self) -> i64 {
        -self.font_box.bottom
    }

    fn dummy_columns(&self) -> i64 {
        self.font_box.columns()
    }

    /// The columns of all pictures, the dummy's too.
    pub fn columns(&self) -> i64 {
        let pictures: i64 = self.pictures.values().map(Picture::columns).sum();
        pictures + self.dummy_columns()
    }

    fn raster(&self) -> i64 {
        (self.columns() + 15) / 16
    }

    pub fn body_length(&self) -> i64 {
        self.raster() * self.height() + self.codes() + 7
    }

    pub fn file_length(&self) -> i64 {
        self.raster() * self.height() + 2 * self.codes() + 16
    }

    fn spacings(&self) -> impl Iterator<Item = i64> + '_ {
        self.pictures
            .values()
            .map(|picture| picture.character.spacing)
    }

    fn maxwidth(&self) -> i64 {
        self.spacings().max().expect("the letter A is there")
    }

    fn is_fixed(&self) -> bool {
        self.spacings().all(|spacing| spacing == self.maxwidth())
    }

    pub fn words(&self) -> Vec<u16> {
        let mut words = self.header();
        words.extend(self.bitmap());
        words.extend(self.pointers().into_iter().map(two_complement_word));
        words.extend(self.width_entries());
        words
    }

    fn header(&self) -> Vec<u16> {
        let format = if self.is_fixed() { 0xB000 } else { 0x9000 };
        let numbers = [
            format,
            self.min(),
            self.max(),
            self.maxwidth(),
            self.font_box.left,
            self.font_box.bottom,
            self.font_box.columns(),
            self.font_box.rows(),
            self.body_length(),
            self.ascent(),
            self.descent(),
            0,
            self.raster(),
        ];
        numbers.map(two_complement_word).to_vec()
    }

    /// One pointer for each code from min to max + 2.
    fn pointers(&self) -> Vec<i64> {
        let mut pointers = vec![0];
        let mut column = 0;
        for code in self.min()..=self.max() {
            column += self.pictures.get(&code).map_or(0, Picture::columns);
            pointers.push(column);
        }
        pointers.push(column + self.dummy_columns());
        pointers
    }

    fn width_entries(&self) -> Vec<u16> {
        let of_code = |code| self.pictures.get(&code).map_or(ABSENT, |p| self.entry(p));
        let mut entries: Vec<u16> = (self.min()..=self.max()).map(of_code).collect();
        entries.push(self.maxwidth() as u16);
        entries
    }

    fn entry(&self, picture: &Picture) -> u16 {
        (self.offset(picture) * 256 + picture.character.spacing) as u16
    }

    fn bitmap(&self) -> Vec<u16> {
        let pointers = self.pointers();
        let mut bitmap = Bitmap::blank(self.raster(), self.height());
        for (&code, picture) in &self.pictures {
            let first_column = pointers[(code - self.min()) as usize];
            self.put_picture(&mut bitmap, first_column, picture);
        }
        self.put_dummy(&mut bitmap, pointers[self.codes() as usize]);
        bitmap.words
    }

    fn put_picture(&self, bitmap: &mut Bitmap, first_column: i64, picture: &Picture) {
        for row in 0..self.height() {
            for column in 0..picture.columns() {
                let x = picture.left() + column;
                let y = self.ascent() - 1 - row;
                if self.dot_at(picture.character, x, y) {
                    bitmap.set_dot(row, first_column + column);
                }
            }
        }
    }

    fn put_dummy(&self, bitmap: &mut Bitmap, first_column: i64) {
        for row in 0..self.height() {
            for column in 0..self.dummy_columns() {
                bitmap.set_dot(row, first_column + column);
            }
        }
    }

    /// A character's dot at a place counted from the origin. The place lies in the font's
    /// box, and so in the raster.
    fn dot_at(&self, character: &Character, x: i64, y: i64) -> bool {
        self.file
            .dot(character, self.origin.row - y, self.origin.column + x)
    }
}

/// The rows of a strike.
struct Bitmap {
    raster: i64,
    words: Vec<u16>,
}

impl Bitmap {
    fn blank(raster: i64, height: i64) -> Bitmap {
        Bitmap {
            raster,
            words: vec![0; (raster * height) as usize],
        }
    }

    fn set_dot(&mut self, row: i64, column: i64) {
        let number = row * 16 * self.raster + column;
        set_bit(&mut self.words, number as usize, true);
    }
}
