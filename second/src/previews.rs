//! Inputs of the preview program as files, each with what the program must write.

use std::fs;
use std::io;
use std::path::Path;

use crate::generate::preview_inputs;
use crate::preview::preview;

/// `N.txt` is what comes on standard input, `N.flags` the arguments before the font, `N.font` the
/// font, which may be missing, `N.shape` the three numbers behind it, `N.out` and `N.err` what
/// comes on standard output and standard error.
pub fn write_files(seed: u64, count: usize, directory: &Path, fonts: &[Vec<u8>]) -> io::Result<()> {
    for (number, input) in preview_inputs(seed, count, fonts).enumerate() {
        let written = preview(input.font.as_deref(), input.shape, &input.lines);
        let shape = input.shape;
        let numbers = format!(
            "{} {} {}\n",
            shape.words_per_row, shape.rows, shape.strip_width
        );
        let (flags, behind) = if input.counts {
            ("--counts\n", written.counts_text())
        } else {
            ("\n", String::new())
        };
        let file = |end| directory.join(format!("{number}.{end}"));
        if let Some(font) = &input.font {
            fs::write(file("font"), font)?;
        }
        fs::write(file("flags"), flags)?;
        fs::write(file("shape"), numbers)?;
        fs::write(file("txt"), input.lines)?;
        fs::write(file("out"), written.picture)?;
        fs::write(file("err"), written.errors + &behind)?;
    }
    Ok(())
}
