//! Answering a list of calls.

use std::io::{self, BufRead, Write};

use crate::bits::set_bit;
use crate::counts::{self, counts_of_words, words_of_counts};
use crate::cu;
use crate::desk;
use crate::font;
use crate::label::{self, Call, Pen};
use crate::list::{self, bytes_text, words_text, Command, Register, SheetName};
use crate::panel::Shape;
use crate::refusal::{number_of, Refused};
use crate::sheet::{self, Sheet};

/// The registers, and what the last conversion wrote.
#[derive(Default)]
pub struct Replay {
    font: Vec<u16>,
    cu: Vec<u16>,
    panel: Vec<u16>,
    sheet_one: SheetRegisters,
    sheet_two: SheetRegisters,
    out: Vec<u16>,
    file: Vec<u8>,
    counts: Vec<u16>,
    written: Vec<u16>,
}

#[derive(Default)]
struct SheetRegisters {
    keep: Vec<u16>,
    flip: Vec<u16>,
}

impl SheetRegisters {
    fn lent(&mut self) -> Sheet<'_> {
        Sheet {
            keep: &mut self.keep,
            flip: &mut self.flip,
        }
    }
}

/// Why a list was not answered to its end.
#[derive(Debug)]
pub enum Stopped {
    Malformed { line: usize, reason: String },
    Channel(io::Error),
}

impl From<io::Error> for Stopped {
    fn from(error: io::Error) -> Stopped {
        Stopped::Channel(error)
    }
}

/// Reads a list and writes its answers.
pub fn replay(mut list: impl BufRead, mut answers: impl Write) -> Result<(), Stopped> {
    let mut replay = Replay::default();
    let mut bytes = Vec::new();
    for line in 1.. {
        bytes.clear();
        if list.read_until(b'\n', &mut bytes)? == 0 {
            break;
        }
        let command =
            command_of_line(&bytes).map_err(|reason| Stopped::Malformed { line, reason })?;
        if let Some(answer) = command.and_then(|command| replay.perform(command)) {
            writeln!(answers, "{answer}")?;
        }
    }
    answers.flush()?;
    Ok(())
}

fn command_of_line(bytes: &[u8]) -> Result<Option<Command>, String> {
    if !bytes.is_ascii() {
        return Err("there is a character outside ASCII".to_string());
    }
    let text: String = bytes.iter().map(|&byte| char::from(byte)).collect();
    match text.strip_suffix('\n') {
        Some(line) => list::parse(line),
        None => Err("no newline ends the line".to_string()),
    }
}

impl Replay {
    /// Performs one command; a call has an answer.
    pub fn perform(&mut self, command: Command) -> Option<String> {
        match command {
            Command::SetWords(register, words) => *self.words_mut(register) = words,
            Command::SetFile(bytes) => self.file = bytes,
            Command::Written => self.font = self.written.clone(),
            call => return Some(self.answer(call)),
        }
        None
    }

    fn answer(&mut self, call: Command) -> String {
        match call {
            Command::Check => format!("check {}", number_of(&font::read(&self.font))),
            Command::Glyph { code } => self.glyph(code),
            Command::Dots { code, row, column } => self.dots(code, row, column),
            Command::Row { body, row } => {
                let words = font::strike_row(&self.font, body, row);
                format!("row{}", words_text(words))
            }
            Command::Measure { x, label } => {
                pen_answer("measure", label::measure(&self.font, x, &label))
            }
            Command::Paint(call) => {
                pen_answer("paint", label::paint(&self.font, &call, &mut self.panel))
            }
            Command::PaintLit(call) => self.paint_lit(&call),
            Command::Fresh(name, shape) => {
                let outcome = sheet::fresh(shape, self.sheet_mut(name).lent());
                format!("fresh {}", number_of(&outcome))
            }
            Command::Gather(name, call) => {
                let font = self.font.clone();
                let outcome = sheet::gather(&font, &call, self.sheet_mut(name).lent());
                pen_answer("gather", outcome)
            }
            Command::Join(shape) => {
                let second = &self.sheet_two;
                let first = self.sheet_one.lent();
                let outcome = sheet::join(shape, first, &second.keep, &second.flip);
                format!("join {}", number_of(&outcome))
            }
            Command::Apply(name, shape) => {
                let sheet = chosen(name, &self.sheet_one, &self.sheet_two);
                let outcome = sheet::apply(shape, &sheet.keep, &sheet.flip, &mut self.panel);
                format!("apply {}", number_of(&outcome))
            }
            Command::ApplyLit(name, shape) => self.apply_lit(name, shape),
            Command::Clear(shape) => self.clear(shape),
            Command::Convert => self.convert(),
            Command::Program => self.program(),
            Command::DeskCheck => {
                format!("deskcheck {}", number_of(&desk::check(&self.file)))
            }
            Command::DeskMeasure { x, label } => {
                pen_answer("deskmeasure", desk::measure_label(&self.file, x, &label))
            }
            Command::Words => count_answer("words", desk::words(&self.file, &mut self.out)),
            Command::Show(register) => self.show(register),
            Command::SetWords(..) | Command::SetFile(_) | Command::Written => {
                unreachable!("a setting has no answer")
            }
        }
    }

    fn glyph(&self, code: i64) -> String {
        match font::read(&self.font) {
            Ok(font) => {
                let glyph = font.glyph(code);
                format!(
                    "glyph 0 {} {} {} {} {} {}",
                    glyph.columns,
                    glyph.place,
                    glyph.spacing,
                    u8::from(glyph.substitute),
                    glyph.ascent(),
                    glyph.height()
                )
            }
            Err(Refused(number)) => format!("glyph {number} 0 0 0 0 0 0"),
        }
    }

    fn dots(&self, code: i64, row: i64, column: i64) -> String {
        match font::read(&self.font) {
            Ok(font) => {
                let glyph = font.glyph(code);
                let mut dots = [0];
                for place in 0..16 {
                    let dot = glyph.dot(row, column + place);
                    set_bit(&mut dots, place as usize, dot);
                }
                format!("dots 0 {:04X}", dots[0])
            }
            Err(Refused(number)) => format!("dots {number} 0000"),
        }
    }

    fn paint_lit(&mut self, call: &Call) -> String {
        let mut counts = counts_of_words(&self.counts);
        let outcome = counts::paint(&self.font, call, &mut self.panel, &mut counts);
        self.counts = words_of_counts(&counts);
        pen_answer("paintlit", outcome)
    }

    fn apply_lit(&mut self, name: SheetName, shape: Shape) -> String {
        let sheet = chosen(name, &self.sheet_one, &self.sheet_two);
        let mut counts = counts_of_words(&self.counts);
        let panel = &mut self.panel;
        let outcome = counts::apply(shape, &sheet.keep, &sheet.flip, panel, &mut counts);
        self.counts = words_of_counts(&counts);
        format!("applylit {}", number_of(&outcome))
    }

    fn clear(&mut self, shape: Shape) -> String {
        let mut counts = counts_of_words(&self.counts);
        let outcome = counts::clear(shape, &mut self.panel, &mut counts);
        self.counts = words_of_counts(&counts);
        format!("clear {}", number_of(&outcome))
    }

    fn convert(&mut self) -> String {
        let outcome = cu::convert(&self.cu, &mut self.out);
        self.written = self.out[..outcome.unwrap_or(0)].to_vec();
        count_answer("convert", outcome)
    }

    fn program(&self) -> String {
        let outcome = cu::program(&self.file);
        let number = number_of(&outcome);
        let printed = outcome.unwrap_or_default();
        format!("program {number}{}", words_text(&printed))
    }

    fn show(&mut self, register: Register) -> String {
        let content = match register {
            Register::File => bytes_text(&self.file),
            _ => words_text(self.words_mut(register)),
        };
        format!("{}{content}", register.name())
    }

    fn sheet_mut(&mut self, name: SheetName) -> &mut SheetRegisters {
        chosen(name, &mut self.sheet_one, &mut self.sheet_two)
    }

    fn words_mut(&mut self, register: Register) -> &mut Vec<u16> {
        match register {
            Register::Font => &mut self.font,
            Register::Cu => &mut self.cu,
            Register::Panel => &mut self.panel,
            Register::Keep1 => &mut self.sheet_one.keep,
            Register::Flip1 => &mut self.sheet_one.flip,
            Register::Keep2 => &mut self.sheet_two.keep,
            Register::Flip2 => &mut self.sheet_two.flip,
            Register::Out => &mut self.out,
            Register::Counts => &mut self.counts,
            Register::File => unreachable!("the file holds bytes"),
        }
    }
}

fn chosen<T>(name: SheetName, one: T, two: T) -> T {
    match name {
        SheetName::One => one,
        SheetName::Two => two,
    }
}

fn pen_answer(call: &str, outcome: Result<Pen, Refused>) -> String {
    match outcome {
        Ok(pen) => format!("{call} 0 {} {}", pen.x, pen.substitutes),
        Err(Refused(number)) => format!("{call} {number} 0 0"),
    }
}

fn count_answer(call: &str, outcome: Result<usize, Refused>) -> String {
    format!("{call} {} {}", number_of(&outcome), outcome.unwrap_or(0))
}
