//! The text of a few commands that belong together.

use crate::label::Call;
use crate::list::{bytes_text, words_text};
use crate::panel::Shape;

#[derive(Default)]
pub struct Scene {
    text: String,
}

impl Scene {
    pub fn text(&self) -> &str {
        &self.text
    }

    pub fn line(&mut self, line: impl AsRef<str>) {
        self.text.push_str(line.as_ref());
        self.text.push('\n');
    }

    pub fn set(&mut self, register: &str, words: &[u16]) {
        self.line(format!("{register}{}", words_text(words)));
    }

    pub fn set_file(&mut self, bytes: &[u8]) {
        self.line(format!("file{}", bytes_text(bytes)));
    }

    pub fn show(&mut self, registers: &[&str]) {
        for register in registers {
            self.line(format!("show {register}"));
        }
    }

    /// `measure` or `deskmeasure`.
    pub fn measure(&mut self, name: &str, x: i64, label: &[u8]) {
        self.line(format!("{name} {x}{}", bytes_text(label)));
    }

    pub fn paint(&mut self, call: &Call) {
        self.line(format!("paint {}", call_text(call)));
    }

    pub fn paint_lit(&mut self, call: &Call) {
        self.line(format!("paintlit {}", call_text(call)));
    }

    pub fn gather(&mut self, sheet: usize, call: &Call) {
        self.line(format!("gather {sheet} {}", call_text(call)));
    }

    pub fn fresh(&mut self, sheet: usize, shape: Shape) {
        self.line(format!("fresh {sheet} {}", shape_text(shape)));
    }

    pub fn apply(&mut self, sheet: usize, shape: Shape) {
        self.line(format!("apply {sheet} {}", shape_text(shape)));
    }

    pub fn apply_lit(&mut self, sheet: usize, shape: Shape) {
        self.line(format!("applylit {sheet} {}", shape_text(shape)));
    }

    pub fn clear(&mut self, shape: Shape) {
        self.line(format!("clear {}", shape_text(shape)));
    }

    pub fn join(&mut self, shape: Shape) {
        self.line(format!("join {}", shape_text(shape)));
    }
}

fn shape_text(shape: Shape) -> String {
    format!(
        "{} {} {}",
        shape.words_per_row, shape.rows, shape.strip_width
    )
}

fn call_text(call: &Call) -> String {
    format!(
        "{} {} {} {} {}{}",
        shape_text(call.shape),
        call.strip,
        call.x,
        call.y,
        call.mode,
        bytes_text(&call.label)
    )
}
