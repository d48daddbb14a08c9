//! Scenes for the desk's calls, which are handed the bytes of a font.

use super::font_files::{any_font, any_index, good_font, refused_font, MadeFont};
use super::label_calls::{random_label, random_x};
use super::random::Random;
use super::scene::Scene;
use super::Scenes;
use crate::bits::bytes_from_words;

/// Each at a limit of the paper or one past it, and the ends of the numbers that C can hand.
const EDGES_OF_X: [i64; 7] = [
    -1_025,
    -1_024,
    0,
    1_023,
    1_024,
    -2_147_483_648,
    2_147_483_647,
];
const EDGES_OF_LENGTH: [usize; 8] = [0, 1, 2, 63, 64, 65, 66, 1_000];

pub struct DeskScenes;

impl Scenes for DeskScenes {
    fn next(&mut self, random: &mut Random, number: usize) -> Scene {
        let mut scene = Scene::default();
        let turn = number / 8;
        let (font, bytes) = desk_file(random, number % 8, turn);
        scene.set_file(&bytes);
        scene.line("deskcheck");
        measure_at_random(random, &font, &mut scene);
        measure_at_an_edge(random, turn, &mut scene);
        words_into_any_room(random, turn, bytes.len() / 2, &mut scene);
        if bytes.len() < 100 && random.one_in(20) {
            scene.show(&["file"]);
        }
        scene
    }
}

/// The bytes, and the font that they were or, where they are random, one to aim calls by.
fn desk_file(random: &mut Random, case: usize, turn: usize) -> (MadeFont, Vec<u8>) {
    let font = match case {
        0 => refused_font(random, turn),
        1 | 2 => any_font(random, turn),
        5 => any_index(random, turn),
        _ => good_font(random),
    };
    let mut bytes = bytes_from_words(&font.words);
    match case {
        2 => make_odd(random, &mut bytes),
        3 => bytes.truncate(turn % 30),
        4 => bytes = random_bytes(random),
        _ => (),
    }
    (font, bytes)
}

/// Half of them begin as a strike file does, so that more than the format is looked at.
fn random_bytes(random: &mut Random) -> Vec<u8> {
    let length = random.below(80);
    let mut bytes: Vec<u8> = (0..length).map(|_| random.byte()).collect();
    if length >= 2 && random.one_in(2) {
        (bytes[0], bytes[1]) = (random.pick(&[0x80, 0x90, 0xA0, 0xB0, 0xC0, 0xD0]), 0);
    }
    bytes
}

/// One byte more or one fewer.
pub fn make_odd(random: &mut Random, bytes: &mut Vec<u8>) {
    if bytes.is_empty() || random.one_in(2) {
        bytes.push(random.byte());
    } else {
        bytes.pop();
    }
}

pub fn measure_at_random(random: &mut Random, font: &MadeFont, scene: &mut Scene) {
    for _ in 0..2 {
        let x = random_x(random, font);
        let label = random_label(random, font);
        scene.measure("deskmeasure", x, &label);
    }
}

/// Each edge of x with each length in turn, so that each sort of file has all of them; the
/// codes are any, so most of them are absent.
fn measure_at_an_edge(random: &mut Random, turn: usize, scene: &mut Scene) {
    let x = EDGES_OF_X[turn % EDGES_OF_X.len()];
    let length = EDGES_OF_LENGTH[turn / EDGES_OF_X.len() % EDGES_OF_LENGTH.len()];
    let label: Vec<u8> = (0..length).map(|_| random.byte()).collect();
    scene.measure("deskmeasure", x, &label);
}

/// An output a word too short, none at all, just enough, a few words longer and any, in turn, so
/// that each sort of file has all of them. What it holds before shows which words stay.
fn words_into_any_room(random: &mut Random, turn: usize, words: usize, scene: &mut Scene) {
    let room = match turn % 5 {
        0 => words.saturating_sub(1),
        1 => 0,
        2 => words,
        3 => words + 1 + random.below(4),
        _ => random.below(words + 40),
    };
    scene.set("out", &vec![random.word(); room]);
    scene.line("words");
    scene.show(&["out"]);
}
