//! The list of calls: its commands, and the spelling of words in lists and answers.

use std::str::Split;

use crate::label::Call;
use crate::panel::Shape;

/// A label is no register and has no limit of its own in the list's rules; this one only
/// keeps a mistyped count from filling the memory.
const LONGEST_LABEL: usize = 140_000;

#[derive(Debug, Clone, Copy, PartialEq, Eq)]
pub enum Register {
    Font,
    Cu,
    Panel,
    Keep1,
    Flip1,
    Keep2,
    Flip2,
    Out,
    File,
    Counts,
}

#[derive(Debug, Clone, Copy, PartialEq, Eq)]
pub enum SheetName {
    One,
    Two,
}

#[derive(Debug, Clone, PartialEq, Eq)]
pub enum Command {
    SetWords(Register, Vec<u16>),
    SetFile(Vec<u8>),
    Written,
    Check,
    Glyph { code: i64 },
    Dots { code: i64, row: i64, column: i64 },
    Row { body: i64, row: i64 },
    Measure { x: i64, label: Vec<u8> },
    Paint(Call),
    PaintLit(Call),
    Fresh(SheetName, Shape),
    Gather(SheetName, Call),
    Join(Shape),
    Apply(SheetName, Shape),
    ApplyLit(SheetName, Shape),
    Clear(Shape),
    Convert,
    Program,
    DeskCheck,
    DeskMeasure { x: i64, label: Vec<u8> },
    Words,
    Show(Register),
}

impl Register {
    pub const ALL: [Register; 10] = [
        Register::Font,
        Register::Cu,
        Register::Panel,
        Register::Keep1,
        Register::Flip1,
        Register::Keep2,
        Register::Flip2,
        Register::Out,
        Register::File,
        Register::Counts,
    ];

    pub fn name(self) -> &'static str {
        match self {
            Register::Font => "font",
            Register::Cu => "cu",
            Register::Panel => "panel",
            Register::Keep1 => "keep1",
            Register::Flip1 => "flip1",
            Register::Keep2 => "keep2",
            Register::Flip2 => "flip2",
            Register::Out => "out",
            Register::File => "file",
            Register::Counts => "counts",
        }
    }

    /// How many words, or bytes for the file, the register may hold.
    fn limit(self) -> usize {
        match self {
            Register::Font | Register::Out => 70_000,
            Register::Cu => 530_000,
            Register::File => 140_000,
            Register::Counts => 64,
            _ => 40_000,
        }
    }

    fn named(name: &str) -> Option<Register> {
        Register::ALL
            .into_iter()
            .find(|register| register.name() == name)
    }
}

/// The command of a line without its newline, or none for a line that is passed over.
pub fn parse(line: &str) -> Result<Option<Command>, String> {
    if line.is_empty() || line.starts_with('#') {
        return Ok(None);
    }
    let mut fields = Fields {
        rest: line.split(' '),
    };
    let name = fields.next("a command")?;
    let command = parse_command(name, &mut fields)?;
    fields.end()?;
    Ok(Some(command))
}

fn parse_command(name: &str, fields: &mut Fields) -> Result<Command, String> {
    if let Some(register) = Register::named(name) {
        return parse_setting(register, fields);
    }
    Ok(match name {
        "written" => Command::Written,
        "check" => Command::Check,
        "glyph" => Command::Glyph {
            code: fields.number()?,
        },
        "dots" => Command::Dots {
            code: fields.number()?,
            row: fields.number()?,
            column: fields.number()?,
        },
        "row" => Command::Row {
            body: fields.number()?,
            row: fields.number()?,
        },
        "measure" => Command::Measure {
            x: fields.signed_number()?,
            label: fields.label()?,
        },
        "paint" => Command::Paint(fields.call()?),
        "paintlit" => Command::PaintLit(fields.call()?),
        "fresh" => Command::Fresh(fields.sheet()?, fields.shape()?),
        "gather" => Command::Gather(fields.sheet()?, fields.call()?),
        "join" => Command::Join(fields.shape()?),
        "apply" => Command::Apply(fields.sheet()?, fields.shape()?),
        "applylit" => Command::ApplyLit(fields.sheet()?, fields.shape()?),
        "clear" => Command::Clear(fields.shape()?),
        "convert" => Command::Convert,
        "program" => Command::Program,
        "deskcheck" => Command::DeskCheck,
        "deskmeasure" => Command::DeskMeasure {
            x: fields.signed_number()?,
            label: fields.label()?,
        },
        "words" => Command::Words,
        "show" => Command::Show(fields.register()?),
        _ => return Err(format!("no command is called {name:?}")),
    })
}

fn parse_setting(register: Register, fields: &mut Fields) -> Result<Command, String> {
    if register == Register::File {
        return Ok(Command::SetFile(fields.bytes(register.limit())?));
    }
    let words = fields.words(register.limit())?;
    Ok(Command::SetWords(register, words))
}

/// The fields of a line that are still to be read.
struct Fields<'a> {
    rest: Split<'a, char>,
}

impl<'a> Fields<'a> {
    fn next(&mut self, wanted: &str) -> Result<&'a str, String> {
        self.rest
            .next()
            .ok_or_else(|| format!("{wanted} is missing"))
    }

    fn end(&mut self) -> Result<(), String> {
        match self.rest.next() {
            None => Ok(()),
            Some(field) => Err(format!("the field {field:?} is one too many")),
        }
    }

    fn number(&mut self) -> Result<i64, String> {
        let field = self.next("a number")?;
        unsigned(field).ok_or_else(|| not_a("number", field))
    }

    fn signed_number(&mut self) -> Result<i64, String> {
        let field = self.next("a number")?;
        signed(field).ok_or_else(|| not_a("number with a sign", field))
    }

    fn sheet(&mut self) -> Result<SheetName, String> {
        match self.next("a sheet")? {
            "1" => Ok(SheetName::One),
            "2" => Ok(SheetName::Two),
            field => Err(not_a("sheet", field)),
        }
    }

    fn register(&mut self) -> Result<Register, String> {
        let field = self.next("a register")?;
        Register::named(field).ok_or_else(|| not_a("register", field))
    }

    fn shape(&mut self) -> Result<Shape, String> {
        Ok(Shape {
            words_per_row: self.number()?,
            rows: self.number()?,
            strip_width: self.number()?,
        })
    }

    fn call(&mut self) -> Result<Call, String> {
        Ok(Call {
            shape: self.shape()?,
            strip: self.number()?,
            x: self.signed_number()?,
            y: self.signed_number()?,
            mode: self.number()?,
            label: self.label()?,
        })
    }

    fn label(&mut self) -> Result<Vec<u8>, String> {
        self.bytes(LONGEST_LABEL)
    }

    fn bytes(&mut self, limit: usize) -> Result<Vec<u8>, String> {
        let values = self.values(2, limit)?;
        Ok(values.into_iter().map(|value| value as u8).collect())
    }

    fn words(&mut self, limit: usize) -> Result<Vec<u16>, String> {
        self.values(4, limit)
    }

    /// All fields up to the end of the line, as words or bytes of so many digits.
    fn values(&mut self, digits: usize, limit: usize) -> Result<Vec<u16>, String> {
        let mut values = Vec::new();
        for field in self.rest.by_ref() {
            let (value, count) = run(field, digits).ok_or_else(|| not_a("value", field))?;
            if count > (limit - values.len()) as i64 {
                return Err(format!("there are more than {limit} values"));
            }
            values.extend(std::iter::repeat(value).take(count as usize));
        }
        Ok(values)
    }
}

fn not_a(kind: &str, field: &str) -> String {
    format!("{field:?} is no {kind}")
}

fn unsigned(field: &str) -> Option<i64> {
    let all_digits = !field.is_empty() && field.bytes().all(|byte| byte.is_ascii_digit());
    if !all_digits {
        return None;
    }
    let value: i64 = field.parse().ok()?;
    (value <= i64::from(u32::MAX)).then_some(value)
}

fn signed(field: &str) -> Option<i64> {
    let value = match field.strip_prefix('-') {
        Some(digits) => -unsigned(digits).filter(|&value| value != 0)?,
        None => unsigned(field)?,
    };
    i32::try_from(value).is_ok().then_some(value)
}

/// A value and how often it stands there.
fn run(field: &str, digits: usize) -> Option<(u16, i64)> {
    match field.split_once('*') {
        Some((value, count)) => Some((hexadecimal(value, digits)?, unsigned(count)?)),
        None => Some((hexadecimal(field, digits)?, 1)),
    }
}

fn hexadecimal(field: &str, digits: usize) -> Option<u16> {
    let is_digit = |byte: u8| byte.is_ascii_digit() || (b'A'..=b'F').contains(&byte);
    if field.len() != digits || !field.bytes().all(is_digit) {
        return None;
    }
    u16::from_str_radix(field, 16).ok()
}

/// The fields for words, each behind a space.
pub fn words_text(words: &[u16]) -> String {
    spelled(words, |word| format!("{word:04X}"))
}

/// The fields for bytes, each behind a space.
pub fn bytes_text(bytes: &[u8]) -> String {
    spelled(bytes, |byte| format!("{byte:02X}"))
}

fn spelled<T: PartialEq + Copy>(values: &[T], spelling: impl Fn(T) -> String) -> String {
    let mut text = String::new();
    let mut rest = values;
    while let Some(&first) = rest.first() {
        let count = rest.iter().take_while(|&&value| value == first).count();
        text.push(' ');
        text.push_str(&spelling(first));
        if count > 1 {
            text.push_str(&format!("*{count}"));
        }
        rest = &rest[count..];
    }
    text
}
