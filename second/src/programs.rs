//! Inputs of the conversion program as files, each with what the program must write.

use std::fs;
use std::io;
use std::path::Path;

use crate::bits::bytes_from_words;
use crate::cu::program;
use crate::generate::program_inputs;
use crate::refusal::Refused;

/// `N.cu` is an input, `N.out` and `N.err` what comes on standard output and standard error.
pub fn write_files(seed: u64, count: usize, directory: &Path) -> io::Result<()> {
    for (number, input) in program_inputs(seed, count).enumerate() {
        let (output, errors) = written_for(&input);
        let file = |end| directory.join(format!("{number}.{end}"));
        fs::write(file("cu"), input)?;
        fs::write(file("out"), output)?;
        fs::write(file("err"), errors)?;
    }
    Ok(())
}

fn written_for(input: &[u8]) -> (Vec<u8>, String) {
    match program(input) {
        Ok(words) => (bytes_from_words(&words), String::new()),
        Err(Refused(number)) => (Vec::new(), format!("refused {number}\n")),
    }
}
