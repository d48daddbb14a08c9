//! The shape of a panel and its 32 strips.

use crate::refusal::{refuse_if, Refused};

/// R words in a row, H rows, strips W columns wide.
#[derive(Debug, Clone, Copy, PartialEq, Eq)]
pub struct Shape {
    pub words_per_row: i64,
    pub rows: i64,
    pub strip_width: i64,
}

/// A dot's row and column on the panel.
pub type Place = (i64, i64);

impl Shape {
    /// Test 8, for all the slices that a call is lent.
    pub fn test(&self, lent: &[&[u16]]) -> Result<(), Refused> {
        refuse_if(!self.is_allowed(), 8)?;
        let too_short = lent.iter().any(|slice| slice.len() < self.words());
        refuse_if(too_short, 8)
    }

    fn is_allowed(&self) -> bool {
        (1..=128).contains(&self.words_per_row)
            && (1..=256).contains(&self.rows)
            && (1..=64).contains(&self.strip_width)
            && 32 * self.strip_width <= 16 * self.words_per_row
    }

    /// R × H, of an allowed shape.
    pub fn words(&self) -> usize {
        (self.words_per_row * self.rows) as usize
    }

    /// The panel's place of a row and a strip column, or none where the dot is dropped.
    pub fn place_in_strip(&self, strip: i64, row: i64, strip_column: i64) -> Option<Place> {
        let in_panel = (0..self.rows).contains(&row);
        let in_strip = (0..self.strip_width).contains(&strip_column);
        if in_panel && in_strip {
            Some((row, strip * self.strip_width + strip_column))
        } else {
            None
        }
    }

    /// The number of a dot, counted in bits from the first word of a slice.
    pub fn bit_number(&self, place: Place) -> usize {
        let (row, column) = place;
        (row * self.words_per_row * 16 + column) as usize
    }
}
