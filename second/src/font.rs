//! Reading the four kinds of strike files: PlainStrike, KernedStrike, PlainStrikeIndex and
//! KernedStrikeIndex.

mod body;
mod index;
mod strike;

use crate::bits::{bit, signed};
use crate::refusal::{refuse_if, Refused};
use body::Body;

const ABSENT_ENTRY: u16 = 0xFFFF;
const LEAST_WORDS: usize = 9;
const LEAST_KERNED_WORDS: usize = 13;

/// A font file that passed every test of the reader.
pub struct Font<'a> {
    header: Header,
    /// Which body and which of its codes each code shows. A strike has none: it has one body,
    /// and its codes are that body's, in order.
    map: Option<&'a [u16]>,
    bodies: Vec<Body<'a>>,
    /// Offset and spacing of each code; a plain font has none.
    entries: &'a [u16],
}

/// What the words before the bodies say, as plain numbers, so that no sum of them can wrap.
struct Header {
    index: bool,
    kerned: bool,
    min: i64,
    max: i64,
    /// 0 in a plain font.
    fbbox: i64,
}

/// What a font shows for a code.
pub struct Glyph<'a> {
    body: Body<'a>,
    first_column: i64,
    pub columns: i64,
    /// Where the left column goes, counted from the pen.
    pub place: i64,
    pub spacing: i64,
    pub substitute: bool,
}

/// The tests of the words that the four kinds have in common come first.
pub fn read(words: &[u16]) -> Result<Font<'_>, Refused> {
    refuse_if(words.len() < LEAST_WORDS, 1)?;
    refuse_if(!is_font_format(words[0]), 2)?;
    let kerned = bit(words, 3);
    refuse_if(kerned && words.len() < LEAST_KERNED_WORDS, 1)?;
    let header = Header::of(words);
    refuse_if(!header.codes_are_allowed(), 3)?;
    let font = if header.index {
        index::read(words, header)?
    } else {
        strike::read(words, header)?
    };
    refuse_if(font.lacks_dummy(), 7)?;
    Ok(font)
}

/// The index bit, the fixed bit and the kerned bit may be either.
fn is_font_format(format: u16) -> bool {
    let always_one = bit(&[format], 0);
    let low_twelve_bits = format & 0x0FFF;
    always_one && low_twelve_bits == 0
}

impl Header {
    fn of(words: &[u16]) -> Header {
        let kerned = bit(words, 3);
        Header {
            index: bit(words, 1),
            kerned,
            min: i64::from(words[1]),
            max: i64::from(words[2]),
            fbbox: if kerned { signed(words[4]) } else { 0 },
        }
    }

    /// The paper's n.
    fn codes(&self) -> i64 {
        self.max - self.min + 1
    }

    fn dummy(&self) -> i64 {
        self.max + 1
    }

    fn codes_are_allowed(&self) -> bool {
        self.min <= self.max && self.max <= 255
    }

    fn fbbox_is_allowed(&self) -> bool {
        (-255..=255).contains(&self.fbbox)
    }

    /// How many width entries stand at the end of the file.
    fn entries(&self) -> i64 {
        if self.kerned {
            self.codes() + 1
        } else {
            0
        }
    }
}

impl<'a> Font<'a> {
    /// The picture and the moves for a code, which may be any number.
    pub fn glyph(&self, code: i64) -> Glyph<'a> {
        let substitute = !self.exists(code);
        let shown = if substitute {
            self.header.dummy()
        } else {
            code
        };
        let (body, code_in_body) = self.place_of_picture(shown);
        let body = self.bodies[body];
        let (first_column, columns) = body.columns_of(code_in_body);
        let (place, spacing) = if self.header.kerned {
            self.place_and_spacing(shown)
        } else {
            (0, columns)
        };
        Glyph {
            body,
            first_column,
            columns,
            place,
            spacing,
            substitute,
        }
    }

    /// One row of a body, with no words where there is no such body or row.
    pub fn row(&self, body: i64, row: i64) -> &'a [u16] {
        match self.bodies.get(body as usize) {
            Some(body) => body.row(row),
            None => &[],
        }
    }

    fn exists(&self, code: i64) -> bool {
        (self.header.min..=self.header.max).contains(&code)
            && !self.is_marked_absent(code)
            && !self.is_plain_gap(code)
    }

    /// For the codes from min to max + 1: marked in the map, or by the width entry.
    fn is_marked_absent(&self, code: i64) -> bool {
        let in_the_map = self.map.map_or(false, |map| {
            let entry = map[self.place_in_tables(code)];
            bit(&[entry], 0)
        });
        in_the_map || (self.header.kerned && self.width_entry(code) == ABSENT_ENTRY)
    }

    /// A plain strike has no other way to leave out a code than to give it no columns. In the
    /// other kinds a picture without columns is an empty character and exists.
    fn is_plain_gap(&self, code: i64) -> bool {
        let is_plain_strike = !self.header.index && !self.header.kerned;
        let (body, code_in_body) = self.place_of_picture(code);
        is_plain_strike && self.bodies[body].columns_of(code_in_body).1 == 0
    }

    /// A plain strike need not show anything for its dummy.
    fn lacks_dummy(&self) -> bool {
        self.is_marked_absent(self.header.dummy())
    }

    /// The body, and the code in that body, of a code from min to max + 1.
    fn place_of_picture(&self, code: i64) -> (usize, usize) {
        let place = self.place_in_tables(code);
        match self.map {
            Some(map) => index::place_in_map_entry(map[place]),
            None => (0, place),
        }
    }

    fn place_and_spacing(&self, code: i64) -> (i64, i64) {
        let entry = i64::from(self.width_entry(code));
        let (offset, spacing) = (entry / 256, entry % 256);
        (self.header.fbbox + offset, spacing)
    }

    fn width_entry(&self, code: i64) -> u16 {
        self.entries[self.place_in_tables(code)]
    }

    /// Map and width entries begin with those of min.
    fn place_in_tables(&self, code: i64) -> usize {
        (code - self.header.min) as usize
    }
}

impl Glyph<'_> {
    /// How many rows of the picture stand above the baseline.
    pub fn ascent(&self) -> i64 {
        self.body.ascent
    }

    pub fn height(&self) -> i64 {
        self.body.height()
    }

    /// One dot of the picture; there are none outside it.
    pub fn dot(&self, row: i64, column: i64) -> bool {
        let inside = (0..self.height()).contains(&row) && (0..self.columns).contains(&column);
        inside && bit(self.body.row(row), (self.first_column + column) as usize)
    }
}

/// One row of a body of a file; a refused font gives the empty row as a row past the height
/// does.
pub fn strike_row(words: &[u16], body: i64, row: i64) -> &[u16] {
    match read(words) {
        Ok(font) => font.row(body, row),
        Err(_) => &[],
    }
}
