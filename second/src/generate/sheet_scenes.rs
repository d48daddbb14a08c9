//! Scenes for sheets: one list of calls gathered, painted, cut and exchanged.

use std::rc::Rc;

use super::call_lists::{exchanged, random_calls, FontCall};
use super::font_files::{good_font, refused_font, MadeFont};
use super::label_calls::{
    bad_shape, good_call, good_shape, good_slice, long_slice, short_slice, small_shape, spoil,
};
use super::random::Random;
use super::scene::Scene;
use super::Scenes;
use crate::label::Call;
use crate::panel::Shape;

/// Between these two lines of a scene every keep that is shown is the same, and so is every
/// flip and every panel.
pub const ONE_LIST: &str = "# one list of calls";
pub const ONE_LIST_ENDS: &str = "# other calls";

const SHEET_SLICES: [&str; 4] = ["keep1", "flip1", "keep2", "flip2"];

pub struct SheetScenes;

impl Scenes for SheetScenes {
    fn next(&mut self, random: &mut Random, number: usize) -> Scene {
        let shape = scene_shape(random);
        let font = Rc::new(scene_font(random, number));
        let mut scene = Scene::default();
        let calls = random_calls(random, shape, Rc::clone(&font));
        one_list(random, shape, &calls, &mut scene);
        scene.set("font", &font.words);
        match number % 3 {
            0 => refused_calls(random, shape, &font, &mut scene),
            1 => arbitrary_sheets(random, shape, &mut scene),
            _ => gather_refused(random, shape, &font, &mut scene),
        }
        scene
    }
}

fn scene_shape(random: &mut Random) -> Shape {
    if random.one_in(10) {
        good_shape(random)
    } else {
        let mut shape = small_shape(random);
        shape.rows = shape.rows.min(6);
        shape
    }
}

fn scene_font(random: &mut Random, number: usize) -> MadeFont {
    if number % 10 == 9 {
        refused_font(random, number / 10)
    } else {
        good_font(random)
    }
}

/// The slices that a list of calls begins with.
struct Start {
    shape: Shape,
    keep: Vec<u16>,
    flip: Vec<u16>,
    panel: Vec<u16>,
}

impl Start {
    fn random(random: &mut Random, shape: Shape) -> Start {
        Start {
            shape,
            keep: good_slice(random, shape),
            flip: good_slice(random, shape),
            panel: good_slice(random, shape),
        }
    }

    fn gather(&self, sheet: usize, calls: &[FontCall], scene: &mut Scene) {
        scene.set(&format!("keep{sheet}"), &self.keep);
        scene.set(&format!("flip{sheet}"), &self.flip);
        scene.fresh(sheet, self.shape);
        with_fonts(calls, scene, |scene, call| scene.gather(sheet, call));
    }

    fn paint(&self, calls: &[FontCall], scene: &mut Scene) {
        scene.set("panel", &self.panel);
        with_fonts(calls, scene, |scene, call| scene.paint(call));
        scene.show(&["panel"]);
    }

    fn apply(&self, sheet: usize, scene: &mut Scene) {
        scene.set("panel", &self.panel);
        scene.apply(sheet, self.shape);
        scene.show(&["panel"]);
    }
}

/// Sets the font before each call that has another than the one before it.
fn with_fonts(calls: &[FontCall], scene: &mut Scene, perform: impl Fn(&mut Scene, &Call)) {
    let mut before: Option<&Rc<MadeFont>> = None;
    for FontCall { font, call } in calls {
        if !matches!(before, Some(before) if Rc::ptr_eq(before, font)) {
            scene.set("font", &font.words);
        }
        perform(scene, call);
        before = Some(font);
    }
}

/// All ways to perform a list of calls: gathered and applied, painted, both with its calls
/// exchanged, and gathered in two parts, whose sheets are joined, for every cut.
fn one_list(random: &mut Random, shape: Shape, calls: &[FontCall], scene: &mut Scene) {
    let start = Start::random(random, shape);
    let exchanged = exchanged(random, calls);
    scene.line(ONE_LIST);
    start.gather(1, calls, scene);
    scene.show(&["keep1", "flip1"]);
    start.apply(1, scene);
    start.paint(calls, scene);
    start.gather(2, &exchanged, scene);
    scene.show(&["keep2", "flip2"]);
    start.paint(&exchanged, scene);
    for cut in 0..=calls.len() {
        start.gather(1, &calls[..cut], scene);
        Start::random(random, shape).gather(2, &calls[cut..], scene);
        scene.join(shape);
        scene.show(&["keep1", "flip1"]);
    }
    scene.line(ONE_LIST_ENDS);
    scene.show(&["keep2", "flip2"]);
}

/// Fresh, join and apply with bad shapes, for which the slices may be long enough, and with
/// one slice too short.
fn refused_calls(random: &mut Random, shape: Shape, font: &MadeFont, scene: &mut Scene) {
    let slice_maker = random.pick::<SliceMaker>(&[good_slice, long_slice]);
    set_all_slices(random, shape, slice_maker, scene);
    let bad = bad_shape(random, shape);
    scene.fresh(1, bad);
    scene.join(bad);
    scene.apply(2, bad);
    let short = random.pick(&["keep1", "flip1", "keep2", "flip2", "panel"]);
    scene.set(short, &short_slice(random, shape));
    let call = good_call(random, shape, font);
    let mut order = [0, 1, 2, 3, 4];
    random.shuffle(&mut order);
    for step in order {
        match step {
            0 => scene.fresh(1, shape),
            1 => scene.apply(1, shape),
            2 => scene.join(shape),
            3 => scene.apply(2, shape),
            _ => scene.gather(2, &call),
        }
    }
    show_all_slices(scene);
}

/// Sheets need not come from gathering.
fn arbitrary_sheets(random: &mut Random, shape: Shape, scene: &mut Scene) {
    set_all_slices(random, shape, good_slice, scene);
    scene.apply(1, shape);
    scene.show(&["panel"]);
    scene.apply(2, shape);
    scene.show(&["panel"]);
    scene.join(shape);
    scene.apply(1, shape);
    if random.one_in(2) {
        scene.fresh(2, shape);
        scene.join(shape);
    }
    show_all_slices(scene);
}

/// A spoiled call onto a sheet of arbitrary words, or onto one that is too short.
fn gather_refused(random: &mut Random, shape: Shape, font: &MadeFont, scene: &mut Scene) {
    set_all_slices(random, shape, good_slice, scene);
    let mut call = good_call(random, shape, font);
    if random.one_in(3) {
        let short = random.pick(&["keep2", "flip2"]);
        scene.set(short, &short_slice(random, shape));
    } else {
        spoil(random, &mut call, font);
    }
    scene.gather(2, &call);
    call.shape = shape;
    scene.gather(1, &call);
    scene.show(&SHEET_SLICES);
}

type SliceMaker = fn(&mut Random, Shape) -> Vec<u16>;

fn set_all_slices(random: &mut Random, shape: Shape, make: SliceMaker, scene: &mut Scene) {
    for register in SHEET_SLICES {
        scene.set(register, &make(random, shape));
    }
    scene.set("panel", &make(random, shape));
}

fn show_all_slices(scene: &mut Scene) {
    scene.show(&SHEET_SLICES);
    scene.show(&["panel"]);
}
