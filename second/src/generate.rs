//! Lists made at random from a seed, the same on every platform.

pub mod call_lists;
pub mod count_scenes;
pub mod cu_files;
mod cu_scenes;
mod desk_scenes;
pub mod font_files;
mod font_scenes;
mod index_scenes;
pub mod label_calls;
mod label_scenes;
mod preview_inputs;
pub mod random;
mod scene;
pub mod sheet_scenes;

use std::io::{self, Write};

use preview_inputs::PreviewInput;
use random::Random;
use scene::Scene;

/// Makes the commands of one scene; the number lets a maker go through its special cases in
/// turn, so that a list of moderate length holds all of them.
trait Scenes {
    fn next(&mut self, random: &mut Random, number: usize) -> Scene;
}

#[derive(Debug, Clone, Copy, PartialEq, Eq)]
pub enum Kind {
    Fonts,
    Indexes,
    Labels,
    Sheets,
    Counts,
    Cu,
    Conversions,
    Desk,
}

impl Kind {
    #[cfg(test)]
    pub const ALL: [Kind; 8] = [
        Kind::Fonts,
        Kind::Indexes,
        Kind::Labels,
        Kind::Sheets,
        Kind::Counts,
        Kind::Cu,
        Kind::Conversions,
        Kind::Desk,
    ];

    pub fn named(name: &str) -> Option<Kind> {
        match name {
            "fonts" => Some(Kind::Fonts),
            "indexes" => Some(Kind::Indexes),
            "labels" => Some(Kind::Labels),
            "sheets" => Some(Kind::Sheets),
            "counts" => Some(Kind::Counts),
            "cu" => Some(Kind::Cu),
            "conversions" => Some(Kind::Conversions),
            "desk" => Some(Kind::Desk),
            _ => None,
        }
    }

    fn scenes(self) -> Box<dyn Scenes> {
        match self {
            Kind::Fonts => Box::new(font_scenes::FontScenes),
            Kind::Indexes => Box::new(index_scenes::IndexScenes),
            Kind::Labels => Box::new(label_scenes::LabelScenes::default()),
            Kind::Sheets => Box::new(sheet_scenes::SheetScenes),
            Kind::Counts => Box::new(count_scenes::CountScenes::default()),
            Kind::Cu => Box::new(cu_scenes::CuScenes),
            Kind::Conversions => Box::new(cu_scenes::ConversionScenes),
            Kind::Desk => Box::new(desk_scenes::DeskScenes),
        }
    }
}

pub fn write_list(kind: Kind, seed: u64, count: usize, list: &mut impl Write) -> io::Result<()> {
    let mut random = Random::from_seed(seed);
    let mut scenes = kind.scenes();
    for number in 0..count {
        let scene = scenes.next(&mut random, number);
        list.write_all(scene.text().as_bytes())?;
    }
    Ok(())
}

/// Inputs of the conversion program. They go through its limits and the paper's in turn.
pub fn program_inputs(seed: u64, count: usize) -> impl Iterator<Item = Vec<u8>> {
    let mut random = Random::from_seed(seed);
    (0..count).map(move |number| cu_scenes::program_input(&mut random, number))
}

/// Inputs of the preview program, with the given fonts and with random ones.
pub fn preview_inputs(
    seed: u64,
    count: usize,
    fonts: &[Vec<u8>],
) -> impl Iterator<Item = PreviewInput> + '_ {
    let mut random = Random::from_seed(seed);
    (0..count).map(move |number| preview_inputs::preview_input(&mut random, number, fonts))
}
