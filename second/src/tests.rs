mod bare;
mod conversion;
mod counted_lists;
mod counts;
mod desk;
mod generated;
mod index;
mod lists;
mod paper;
mod preview;
mod sheets;

use crate::replay::{replay, Stopped};

/// The answers to a list.
fn answers_to(list: &str) -> Result<String, Stopped> {
    let mut answers = Vec::new();
    replay(list.as_bytes(), &mut answers)?;
    Ok(String::from_utf8(answers).expect("answers are ASCII"))
}
