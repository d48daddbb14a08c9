//! A strike body: length, ascent, descent, xoffset, raster, the bitmap and the pointers.

pub const BODY_HEAD: usize = 5;

/// The five words before the bitmap as plain numbers, so that no sum of them can wrap.
pub struct BodyHead {
    pub length: i64,
    ascent: i64,
    descent: i64,
    xoffset: i64,
    raster: i64,
}

/// A body whose words are all there.
#[derive(Clone, Copy)]
pub struct Body<'a> {
    pub ascent: i64,
    descent: i64,
    raster: i64,
    bitmap: &'a [u16],
    pointers: &'a [u16],
}

impl BodyHead {
    /// Of the words from the body's first on.
    pub fn of(words: &[u16]) -> BodyHead {
        let number = |place: usize| i64::from(words[place]);
        BodyHead {
            length: number(0),
            ascent: number(1),
            descent: number(2),
            xoffset: number(3),
            raster: number(4),
        }
    }

    fn height(&self) -> i64 {
        self.ascent + self.descent
    }

    pub fn sizes_are_allowed(&self) -> bool {
        (1..=256).contains(&self.height()) && (1..=4096).contains(&self.raster) && self.xoffset == 0
    }

    pub fn bitmap_words(&self) -> i64 {
        self.raster * self.height()
    }

    /// What the length word leaves after the five words and the bitmap; less than nothing where
    /// it does not reach so far.
    pub fn pointers_left(&self) -> i64 {
        self.length - BODY_HEAD as i64 - self.bitmap_words()
    }
}

impl<'a> Body<'a> {
    /// Of exactly the body's words.
    pub fn of(head: &BodyHead, words: &'a [u16]) -> Body<'a> {
        let (bitmap, pointers) = words[BODY_HEAD..].split_at(head.bitmap_words() as usize);
        Body {
            ascent: head.ascent,
            descent: head.descent,
            raster: head.raster,
            bitmap,
            pointers,
        }
    }

    pub fn height(&self) -> i64 {
        self.ascent + self.descent
    }

    pub fn pointers_are_allowed(&self) -> bool {
        let ascending = self.pointers.windows(2).all(|pair| pair[0] <= pair[1]);
        let last = self.pointers[self.pointers.len() - 1];
        ascending && i64::from(last) <= 16 * self.raster
    }

    /// Codes are counted from the body's first pointer here; each needs the pointer behind its own
    /// as well.
    pub fn has_columns_of(&self, code: usize) -> bool {
        code + 1 < self.pointers.len()
    }

    /// The first column of a code, and how many there are.
    pub fn columns_of(&self, code: usize) -> (i64, i64) {
        let pointer = |place: usize| i64::from(self.pointers[place]);
        (pointer(code), pointer(code + 1) - pointer(code))
    }

    /// No words at or past the height.
    pub fn row(&self, row: i64) -> &'a [u16] {
        if row >= self.height() {
            return &[];
        }
        let start = (row * self.raster) as usize;
        &self.bitmap[start..start + self.raster as usize]
    }
}
