//! An independent second reading of the paper on strike fonts, panels and sheets.

mod bits;
mod counts;
mod coverage;
mod cu;
mod desk;
mod font;
mod generate;
mod label;
mod list;
mod panel;
mod preview;
mod previews;
mod programs;
mod refusal;
mod replay;
mod sheet;
#[cfg(test)]
mod tests;

use std::fs;
use std::io::{self, BufWriter, Read, Write};
use std::path::Path;
use std::process::ExitCode;

use coverage::Coverage;
use preview::Arguments;
use replay::Stopped;

const USAGE: &str = "usage: second replay < LIST > ANSWERS
       second generate fonts|indexes|labels|sheets|counts|cu|conversions|desk SEED COUNT > LIST
       second programs SEED COUNT DIRECTORY
       second preview [--counts] FONT R H W < LABELS > PICTURE
       second preview --help
       second previews SEED COUNT DIRECTORY FONT..
       second coverage < ANSWERS
       second messages";

fn main() -> ExitCode {
    let arguments: Vec<String> = std::env::args().skip(1).collect();
    let arguments: Vec<&str> = arguments.iter().map(String::as_str).collect();
    let outcome = match arguments.as_slice() {
        ["replay"] => answer_list(),
        ["generate", kind, seed, count] => write_list(kind, seed, count),
        ["programs", seed, count, directory] => write_programs(seed, count, directory),
        ["preview", "--help"] => write_output(preview::HELP.as_bytes()),
        ["preview", words @ ..] => write_preview(words),
        ["previews", seed, count, directory, fonts @ ..] => {
            write_previews(seed, count, directory, fonts)
        }
        ["coverage"] => count_answers(),
        ["messages"] => write_messages(),
        _ => Err(USAGE.to_string()),
    };
    match outcome {
        Ok(()) => ExitCode::SUCCESS,
        Err(message) => {
            eprintln!("{message}");
            ExitCode::from(2)
        }
    }
}

fn answer_list() -> Result<(), String> {
    let answers = BufWriter::new(io::stdout().lock());
    replay::replay(io::stdin().lock(), answers).map_err(|stopped| match stopped {
        Stopped::Malformed { line, reason } => format!("line {line}: {reason}"),
        Stopped::Channel(error) => error.to_string(),
    })
}

fn write_list(kind: &str, seed: &str, count: &str) -> Result<(), String> {
    let kind = generate::Kind::named(kind).ok_or(USAGE)?;
    let seed = seed.parse().map_err(|_| USAGE)?;
    let count = count.parse().map_err(|_| USAGE)?;
    let mut list = BufWriter::new(io::stdout().lock());
    generate::write_list(kind, seed, count, &mut list)
        .and_then(|()| list.flush())
        .map_err(|error| error.to_string())
}

fn write_programs(seed: &str, count: &str, directory: &str) -> Result<(), String> {
    let seed = seed.parse().map_err(|_| USAGE)?;
    let count = count.parse().map_err(|_| USAGE)?;
    programs::write_files(seed, count, Path::new(directory)).map_err(|error| error.to_string())
}

fn write_preview(words: &[&str]) -> Result<(), String> {
    match preview::arguments(words) {
        Some(arguments) => paint_preview(arguments),
        None => {
            eprint!("{}", preview::USAGE);
            Ok(())
        }
    }
}

fn paint_preview(arguments: Arguments) -> Result<(), String> {
    let font = fs::read(arguments.font).ok();
    let mut lines = Vec::new();
    io::stdin()
        .read_to_end(&mut lines)
        .map_err(|error| error.to_string())?;
    let written = preview::preview(font.as_deref(), arguments.shape, &lines);
    eprint!("{}", written.errors);
    write_output(&written.picture)?;
    if arguments.counts {
        eprint!("{}", written.counts_text());
    }
    Ok(())
}

fn write_output(bytes: &[u8]) -> Result<(), String> {
    let mut output = io::stdout().lock();
    output
        .write_all(bytes)
        .and_then(|()| output.flush())
        .map_err(|error| error.to_string())
}

fn write_previews(seed: &str, count: &str, directory: &str, fonts: &[&str]) -> Result<(), String> {
    let seed = seed.parse().map_err(|_| USAGE)?;
    let count = count.parse().map_err(|_| USAGE)?;
    let fonts: io::Result<Vec<Vec<u8>>> = fonts.iter().map(fs::read).collect();
    fonts
        .and_then(|fonts| previews::write_files(seed, count, Path::new(directory), &fonts))
        .map_err(|error| error.to_string())
}

fn count_answers() -> Result<(), String> {
    let coverage = Coverage::of(io::stdin().lock()).map_err(|error| error.to_string())?;
    for line in coverage.lines() {
        println!("{line}");
    }
    Ok(())
}

fn write_messages() -> Result<(), String> {
    for (number, message) in refusal::MESSAGES {
        println!("{number} {message}");
    }
    Ok(())
}
