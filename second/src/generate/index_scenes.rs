//! Scenes for index files: the check, pictures, dots, rows of several bodies, measures, and labels
//! painted, gathered and painted with counts.

use super::count_scenes::lit_dots;
use super::font_files::{any_index, MadeFont};
use super::font_scenes::{ask_for_pictures, ask_for_rows};
use super::label_calls::{good_call, good_slice, random_label, random_x, small_shape, spoil};
use super::random::Random;
use super::scene::Scene;
use super::Scenes;
use crate::counts::words_of_counts;
use crate::label::Call;
use crate::panel::Shape;

pub struct IndexScenes;

impl Scenes for IndexScenes {
    fn next(&mut self, random: &mut Random, number: usize) -> Scene {
        let font = any_index(random, number);
        let mut scene = Scene::default();
        scene.set("font", &font.words);
        scene.line("check");
        ask_for_pictures(random, &font, &mut scene);
        ask_for_rows(random, &font, &mut scene);
        let x = random_x(random, &font);
        let label = random_label(random, &font);
        scene.measure("measure", x, &label);
        let mut shape = small_shape(random);
        shape.rows = shape.rows.max(3);
        let call = any_call(random, shape, &font);
        match number % 3 {
            0 => paint(random, shape, &call, &mut scene),
            1 => gather(random, shape, &call, &mut scene),
            _ => paint_lit(random, shape, &call, &mut scene),
        }
        scene
    }
}

fn any_call(random: &mut Random, shape: Shape, font: &MadeFont) -> Call {
    let mut call = good_call(random, shape, font);
    if random.one_in(12) {
        spoil(random, &mut call, font);
    }
    call
}

fn paint(random: &mut Random, shape: Shape, call: &Call, scene: &mut Scene) {
    scene.set("panel", &good_slice(random, shape));
    scene.paint(call);
    scene.show(&["panel"]);
}

fn gather(random: &mut Random, shape: Shape, call: &Call, scene: &mut Scene) {
    scene.set("keep1", &good_slice(random, shape));
    scene.set("flip1", &good_slice(random, shape));
    scene.fresh(1, shape);
    scene.gather(1, call);
    scene.show(&["keep1", "flip1"]);
}

/// Mostly with true counts.
fn paint_lit(random: &mut Random, shape: Shape, call: &Call, scene: &mut Scene) {
    let panel = good_slice(random, shape);
    let mut counts = lit_dots(shape, &panel);
    if random.one_in(4) {
        let strip = call.strip.min(31) as usize;
        counts[strip] = random.pick(&[0, (shape.strip_width * shape.rows) as u32]);
    }
    scene.set("panel", &panel);
    scene.set("counts", &words_of_counts(&counts));
    scene.paint_lit(call);
    scene.show(&["panel", "counts"]);
}
