//! Scenes for painting and measuring labels.

use super::font_files::{font_at_limit, good_font, refused_font, MadeFont};
use super::label_calls::{
    good_call, good_shape, good_slice, long_slice, random_label, random_x, short_slice, spoil,
};
use super::random::Random;
use super::scene::Scene;
use super::Scenes;
use crate::panel::Shape;

/// A font serves a few calls, and so does a panel.
#[derive(Default)]
pub struct LabelScenes {
    font: Option<MadeFont>,
    panel_shape: Option<Shape>,
}

impl Scenes for LabelScenes {
    fn next(&mut self, random: &mut Random, number: usize) -> Scene {
        let mut scene = Scene::default();
        if number % 4 == 0 {
            self.change_font(random, number / 4, &mut scene);
        }
        let font = self.font.take().expect("a font was made for this call");
        if random.one_in(6) {
            measure_scene(random, &font, &mut scene);
        } else {
            self.paint_scene(random, &font, &mut scene);
        }
        self.font = Some(font);
        scene
    }
}

impl LabelScenes {
    fn change_font(&mut self, random: &mut Random, turn: usize, scene: &mut Scene) {
        let font = match turn % 12 {
            5 | 11 => refused_font(random, turn / 6),
            8 => font_at_limit(random, turn / 12),
            _ => good_font(random),
        };
        scene.set("font", &font.words);
        self.font = Some(font);
    }

    fn paint_scene(&mut self, random: &mut Random, font: &MadeFont, scene: &mut Scene) {
        let shape = self.panel(random, scene);
        let mut call = good_call(random, shape, font);
        if random.one_in(4) {
            spoil(random, &mut call, font);
        }
        if random.one_in(12) {
            spoil(random, &mut call, font);
        }
        scene.paint(&call);
        if !random.one_in(8) {
            scene.show(&["panel"]);
        }
        if random.one_in(6) {
            scene.measure("measure", call.x, &call.label);
        }
    }

    /// Keeps the panel painted before, or lends a new one.
    fn panel(&mut self, random: &mut Random, scene: &mut Scene) -> Shape {
        if let Some(shape) = self.panel_shape {
            if random.one_in(4) {
                return shape;
            }
        }
        let shape = good_shape(random);
        let (slice, long_enough) = match random.below(15) {
            0 => (short_slice(random, shape), false),
            1 | 2 => (long_slice(random, shape), true),
            _ => (good_slice(random, shape), true),
        };
        scene.set("panel", &slice);
        self.panel_shape = long_enough.then_some(shape);
        shape
    }
}

fn measure_scene(random: &mut Random, font: &MadeFont, scene: &mut Scene) {
    let x = random_x(random, font);
    let label = random_label(random, font);
    scene.measure("measure", x, &label);
}
