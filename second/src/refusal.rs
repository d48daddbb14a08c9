//! The numbers of the paper's table of refusals, and what they mean in words.

#[derive(Debug, Clone, Copy, PartialEq, Eq)]
pub struct Refused(pub u32);

/// Every number, in the order of the paper's table.
pub const MESSAGES: [(u32, &str); 24] = [
    (14, "odd number of bytes"),
    (1, "font file too short for its header"),
    (2, "not a plain or kerned strike file"),
    (3, "font codes out of order or over 255"),
    (15, "index: number of bodies not 1 to 128"),
    (4, "size in the font's header out of range"),
    (5, "font's length is not what its header says"),
    (6, "font's column pointers out of order or past the bitmap"),
    (16, "index: a code names no picture"),
    (7, "font has no dummy character"),
    (8, "panel size out of range, or its memory too short"),
    (9, "strip over 31"),
    (10, "x or y not -1024 to 1023"),
    (11, "label over 64 bytes"),
    (12, "mode over 2"),
    (30, "lit dots of a strip out of range"),
    (20, "CU file too short, or its raster size out of range"),
    (21, "CU file ends inside a character"),
    (22, "CU code over 255, or there twice"),
    (23, "CU file has no code 65 with a dot"),
    (24, "CU spacing too large"),
    (25, "CU character too far right"),
    (26, "font to be written too large"),
    (27, "output memory too short"),
];

impl Refused {
    /// As the preview program says it.
    pub fn in_words(self) -> String {
        let Refused(number) = self;
        let row = MESSAGES.iter().find(|row| row.0 == number);
        let (_, message) = row.expect("a refusal's number is in the table");
        format!("refused {number}: {message}")
    }
}

/// One line of the table.
pub fn refuse_if(condition: bool, number: u32) -> Result<(), Refused> {
    if condition {
        Err(Refused(number))
    } else {
        Ok(())
    }
}

/// What an answer shows for a call without further numbers: 0 means done.
pub fn number_of<T>(outcome: &Result<T, Refused>) -> u32 {
    match outcome {
        Ok(_) => 0,
        Err(Refused(number)) => *number,
    }
}
