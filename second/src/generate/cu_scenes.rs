//! Scenes for the conversion, its program, and the desk's calls on bytes.

use super::cu_files::{
    damaged_file, file_of_most_bytes, file_of_most_columns, file_of_most_output,
    file_of_odd_output, good_file, large_file, special_file, CuFile,
};
use super::desk_scenes::{make_odd, measure_at_random};
use super::font_files::{any_font, MadeFont};
use super::font_scenes::ask_for_pictures;
use super::label_calls::{good_call, good_slice, small_shape};
use super::random::Random;
use super::scene::Scene;
use super::Scenes;
use crate::bits::{bytes_from_words, signed};
use crate::cu::convert;

/// The most words that the register of the output may hold, and the most bytes of the file's.
const MOST_OUTPUT: usize = 70_000;
const MOST_FILE_BYTES: usize = 140_000;

pub struct CuScenes;

impl Scenes for CuScenes {
    fn next(&mut self, random: &mut Random, number: usize) -> Scene {
        let mut scene = Scene::default();
        let turn = number / 8;
        match number % 8 {
            2 => program_scene(random, turn, &mut scene),
            3 | 4 => desk_scene(random, number, &mut scene),
            case => {
                let cu = convertible_words(random, case, turn);
                convert_scene(random, &cu, &mut scene);
            }
        }
        scene
    }
}

/// Conversions alone, which both programs answer, and labels painted from what they write.
pub struct ConversionScenes;

impl Scenes for ConversionScenes {
    fn next(&mut self, random: &mut Random, number: usize) -> Scene {
        let mut scene = Scene::default();
        let cu = match number % 6 {
            5 => large_file(random).words(),
            case => convertible_words(random, case, number / 6),
        };
        convert_scene(random, &cu, &mut scene);
        scene
    }
}

fn convertible_words(random: &mut Random, case: usize, turn: usize) -> Vec<u16> {
    let file = match case {
        0 => damaged_file(random, turn),
        1 => special_file(random, turn),
        _ => good_file(random),
    };
    let mut words = file.words();
    if random.one_in(60) {
        words.truncate(random.below(4));
    }
    words
}

fn convert_scene(random: &mut Random, cu: &[u16], scene: &mut Scene) {
    scene.set("cu", cu);
    let written = words_written(cu);
    let output = output_length(random, written.len());
    scene.set("out", &vec![0xEEEE; output]);
    scene.line("convert");
    scene.show(&["out"]);
    if !written.is_empty() && output >= written.len() {
        use_written_font(random, written, scene);
    } else if random.one_in(4) {
        scene.line("written");
        scene.line("check");
        scene.show(&["font"]);
    }
}

/// What an output of any length would hold; nothing for a refused file.
fn words_written(cu: &[u16]) -> Vec<u16> {
    let mut output = vec![0; MOST_OUTPUT];
    let written = convert(cu, &mut output).unwrap_or(0);
    output.truncate(written);
    output
}

/// Exactly long enough, one short, longer, or none at all.
fn output_length(random: &mut Random, written: usize) -> usize {
    match random.below(12) {
        0 => 0,
        1 | 2 => written.saturating_sub(1),
        3..=6 => written,
        7 => MOST_OUTPUT,
        _ => (written + random.below(6) + 1).min(MOST_OUTPUT),
    }
}

fn use_written_font(random: &mut Random, written: Vec<u16>, scene: &mut Scene) {
    if random.one_in(6) {
        // The words written stay known when the output is lent anew.
        scene.set("out", &[0xDDDD; 3]);
    }
    scene.line("written");
    scene.line("check");
    if random.one_in(10) {
        scene.show(&["font"]);
    }
    let font = font_of_written(written);
    ask_for_pictures(random, &font, scene);
    paint_written_font(random, &font, scene);
}

fn font_of_written(words: Vec<u16>) -> MadeFont {
    let number = |place: usize| i64::from(words[place]);
    MadeFont {
        min: number(1),
        max: number(2),
        ascent: number(9),
        height: number(9) + number(10),
        body_heights: vec![number(9) + number(10)],
        left: signed(words[4]),
        words,
    }
}

fn paint_written_font(random: &mut Random, font: &MadeFont, scene: &mut Scene) {
    let shape = small_shape(random);
    scene.set("panel", &good_slice(random, shape));
    for _ in 0..2 {
        let mut call = good_call(random, shape, font);
        call.label.truncate(8);
        scene.paint(&call);
        scene.show(&["panel"]);
    }
}

fn program_scene(random: &mut Random, turn: usize, scene: &mut Scene) {
    let bytes = program_input(random, turn);
    scene.set_file(&bytes);
    scene.line("program");
    if bytes.len() < 100 && random.one_in(8) {
        scene.show(&["file"]);
    }
}

/// Every fourth input is odd in its number of bytes, and small.
pub fn program_input(random: &mut Random, turn: usize) -> Vec<u8> {
    let words = match turn % 16 {
        0 => return too_many_bytes(random, turn / 16),
        1 => file_of_most_bytes(random).words(),
        2 => program_limit(turn / 16).words(),
        4 => special_file(random, turn / 16).words(),
        5..=9 => damaged_file(random, turn / 2).words(),
        10 => Vec::new(),
        _ => good_file(random).words(),
    };
    let mut bytes = bytes_from_words(&words);
    bytes.truncate(MOST_FILE_BYTES);
    if turn % 4 == 3 {
        make_odd(random, &mut bytes);
    }
    bytes
}

/// One, two or three bytes more than the program reads; sometimes a good file in all else.
fn too_many_bytes(random: &mut Random, turn: usize) -> Vec<u8> {
    let mut bytes = if turn % 2 == 0 {
        bytes_from_words(&file_of_most_bytes(random).words())
    } else {
        vec![random.byte(); 65_536]
    };
    bytes.extend(vec![0; turn % 3 + 1]);
    bytes
}

/// Files at the limits of the program's output and of the columns, and one past them.
fn program_limit(turn: usize) -> CuFile {
    match turn % 7 {
        0 => file_of_most_output(240, 128),
        1 => file_of_most_columns(256),
        2 => file_of_most_output(241, 128),
        3 => file_of_odd_output(244),
        4 => file_of_most_output(240, 129),
        5 => file_of_odd_output(243),
        _ => file_of_most_columns(255),
    }
}

/// Two of eight numbers come here, and together they go through all sorts of fonts.
fn desk_scene(random: &mut Random, number: usize, scene: &mut Scene) {
    let font = any_font(random, 2 * (number / 8) + number % 2);
    let mut bytes = bytes_from_words(&font.words);
    if random.one_in(6) {
        make_odd(random, &mut bytes);
    }
    scene.set_file(&bytes);
    scene.line("deskcheck");
    measure_at_random(random, &font, scene);
}
