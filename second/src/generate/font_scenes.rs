//! Scenes for reading a font: the check, pictures, dots, rows and measures.

use super::font_files::{any_font, MadeFont};
use super::label_calls::{random_label, random_x};
use super::random::Random;
use super::scene::Scene;
use super::Scenes;

pub struct FontScenes;

impl Scenes for FontScenes {
    fn next(&mut self, random: &mut Random, number: usize) -> Scene {
        let font = any_font(random, number);
        let mut scene = Scene::default();
        scene.set("font", &font.words);
        scene.line("check");
        ask_for_pictures(random, &font, &mut scene);
        ask_for_rows(random, &font, &mut scene);
        for _ in 0..2 {
            let x = random_x(random, &font);
            let label = random_label(random, &font);
            scene.measure("measure", x, &label);
        }
        if random.one_in(20) && font.words.len() < 200 {
            scene.show(&["font"]);
        }
        scene
    }
}

pub fn ask_for_pictures(random: &mut Random, font: &MadeFont, scene: &mut Scene) {
    for _ in 0..3 {
        let code = random_code(random, font);
        scene.line(format!("glyph {code}"));
        for _ in 0..2 {
            let row = random_row(random, font.height);
            let column = random_column(random);
            scene.line(format!("dots {code} {row} {column}"));
        }
    }
}

/// The last row of a body, the one past it and a random one, and a row of a body that is not there.
pub fn ask_for_rows(random: &mut Random, font: &MadeFont, scene: &mut Scene) {
    let bodies = font.body_heights.len();
    for _ in 0..bodies.min(2) {
        let body = random.below(bodies);
        let height = font.body_heights[body];
        for row in [height - 1, height, random_row(random, height)] {
            scene.line(format!("row {body} {}", row.max(0)));
        }
    }
    if random.one_in(3) {
        let past = bodies as i64;
        let body = random.pick(&[past, past, past + 1, 128, 256, 65_536, 4_294_967_295]);
        scene.line(format!("row {body} 0"));
    }
}

/// Codes inside, at the ends and outside; some would be inside if high bits were lost.
fn random_code(random: &mut Random, font: &MadeFont) -> i64 {
    let inside = random.between(font.min.min(font.max), font.max);
    match random.below(12) {
        0 => font.min,
        1 => font.max,
        2 => font.max + 1,
        3 => font.max + 2,
        4 => (font.min - 1).max(0),
        5 => random.between(0, 255),
        6 => random.pick(&[inside + 256, inside + 65_536, 4_294_967_295]),
        _ => inside,
    }
}

fn random_row(random: &mut Random, height: i64) -> i64 {
    let height = height.max(1);
    match random.below(10) {
        0 => height - 1,
        1 => height,
        2 => height + 1,
        3 => random.pick(&[65_536, 2_147_483_648, 4_294_967_295]),
        _ => random.between(0, height - 1),
    }
}

fn random_column(random: &mut Random) -> i64 {
    match random.below(10) {
        0 => random.between(0, 40),
        1 => random.pick(&[65_535, 65_536, 4_294_967_295]),
        2 | 3 => random.between(1, 6),
        _ => 0,
    }
}
