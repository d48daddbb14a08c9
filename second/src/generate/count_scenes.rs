//! Scenes for painting, applying and clearing with counts.

use super::font_files::{good_font, overlapping_font, refused_font, MadeFont};
use super::label_calls::{
    bad_shape, good_call, good_slice, long_slice, short_slice, small_shape, spoil,
};
use super::random::Random;
use super::scene::Scene;
use super::Scenes;
use crate::bits::bit;
use crate::counts::{self, words_of_counts, Counts, STRIPS};
use crate::label::{self, Call};
use crate::panel::Shape;
use crate::sheet::{self, Sheet};

const INVERT: i64 = 2;

/// R, H and W at their limits.
pub const LIMITS: [(i64, i64, i64); 6] = [
    (128, 256, 64),
    (2, 1, 1),
    (128, 256, 63),
    (128, 1, 64),
    (2, 256, 1),
    (128, 2, 1),
];

/// A panel, with its counts, serves a few calls.
#[derive(Default)]
pub struct CountScenes {
    panels: usize,
    panel: Option<CountedPanel>,
}

impl Scenes for CountScenes {
    fn next(&mut self, random: &mut Random, _number: usize) -> Scene {
        let mut scene = Scene::default();
        let before = self.panel.take().filter(|_| !random.one_in(6));
        let mut panel = before.unwrap_or_else(|| {
            self.panels += 1;
            CountedPanel::new(random, self.panels, &mut scene)
        });
        let action = panel.choose_action(random, &mut scene);
        if let Some(counts) = panel.choose_counts(random, &action, &mut scene) {
            panel.counts = counts;
        }
        let shortened = random.one_in(12);
        if shortened {
            panel.shorten_a_slice(random, &action, &mut scene);
        }
        action.write(&mut scene);
        scene.show(&["counts", "panel"]);
        if !shortened {
            panel.perform(&action);
            self.panel = Some(panel);
        }
        scene
    }
}

/// What the registers hold. The two slices are those of the sheet that was set last.
struct CountedPanel {
    shape: Shape,
    font: MadeFont,
    panel: Vec<u16>,
    counts: Counts,
    sheet: Option<SetSheet>,
}

struct SetSheet {
    number: usize,
    keep: Vec<u16>,
    flip: Vec<u16>,
}

/// The shape of a call need not be the panel's.
enum Action {
    Paint(Call),
    Apply(usize, Shape),
    Clear(Shape),
}

impl Action {
    fn write(&self, scene: &mut Scene) {
        match self {
            Action::Paint(call) => scene.paint_lit(call),
            Action::Apply(sheet, shape) => scene.apply_lit(*sheet, *shape),
            Action::Clear(shape) => scene.clear(*shape),
        }
    }
}

impl CountedPanel {
    fn new(random: &mut Random, turn: usize, scene: &mut Scene) -> CountedPanel {
        let shape = scene_shape(random, turn);
        let font = match turn % 6 {
            5 => refused_font(random, turn / 6),
            0..=2 => overlapping_font(random),
            _ => good_font(random),
        };
        let panel = match random.below(10) {
            0 => long_slice(random, shape),
            1 | 2 => vec![0; shape.words()],
            _ => good_slice(random, shape),
        };
        let counts = lit_dots(shape, &panel);
        scene.set("font", &font.words);
        scene.set("panel", &panel);
        if counts == [0; STRIPS] {
            scene.set("counts", &[]);
        } else {
            scene.set("counts", &words_of_counts(&counts));
        }
        CountedPanel {
            shape,
            font,
            panel,
            counts,
            sheet: None,
        }
    }

    /// A sheet is set before it is applied, if it is not that of the time before.
    fn choose_action(&mut self, random: &mut Random, scene: &mut Scene) -> Action {
        match random.below(10) {
            0 | 1 => Action::Clear(self.any_shape(random)),
            2..=4 => {
                if self.sheet.is_none() || random.one_in(2) {
                    self.sheet = Some(self.set_sheet(random, scene));
                }
                let sheet = self.sheet.as_ref().expect("a sheet was set");
                Action::Apply(sheet.number, self.any_shape(random))
            }
            _ => Action::Paint(self.any_call(random)),
        }
    }

    fn any_shape(&self, random: &mut Random) -> Shape {
        if random.one_in(8) {
            bad_shape(random, self.shape)
        } else {
            self.shape
        }
    }

    fn any_call(&self, random: &mut Random) -> Call {
        let mut call = good_call(random, self.shape, &self.font);
        if random.one_in(2) {
            invert_twice(&mut call);
        }
        if random.one_in(5) {
            spoil(random, &mut call, &self.font);
        }
        call
    }

    /// A fresh sheet, onto which labels may be gathered, or one of arbitrary words.
    fn set_sheet(&self, random: &mut Random, scene: &mut Scene) -> SetSheet {
        let mut set = SetSheet {
            number: random.below(2) + 1,
            keep: good_slice(random, self.shape),
            flip: good_slice(random, self.shape),
        };
        scene.set(&format!("keep{}", set.number), &set.keep);
        scene.set(&format!("flip{}", set.number), &set.flip);
        if random.one_in(3) {
            return set;
        }
        scene.fresh(set.number, self.shape);
        sheet::fresh(self.shape, set.lent()).expect("its slices are long enough");
        for _ in 0..random.below(4) {
            let call = self.any_call(random);
            scene.gather(set.number, &call);
            let _ = sheet::gather(&self.font.words, &call, set.lent());
        }
        set
    }

    /// None where the counts stay as they are.
    fn choose_counts(
        &self,
        random: &mut Random,
        action: &Action,
        scene: &mut Scene,
    ) -> Option<Counts> {
        let lit = lit_dots(self.shape, &self.panel);
        let counts = match random.below(12) {
            0 => lit,
            1..=3 => self.aimed(random, action, lit),
            4 | 5 => self.off_by_one(random, action, lit),
            6 => self.with_an_edge(random, lit),
            7 => return Some(self.cut_short(random, lit, scene)),
            _ => return None,
        };
        scene.set("counts", &words_of_counts(&counts));
        Some(counts)
    }

    /// The call brings the count of one strip to an end of what is allowed, or one past it. The
    /// other counts are true.
    fn aimed(&self, random: &mut Random, action: &Action, lit: Counts) -> Counts {
        let (strip, change) = self.changed_strip(random, action, &lit);
        let most = self.dots_of_a_strip();
        let end = match self.change_on_the_way(action, strip, &lit) {
            Some(first) if first > change => random.pick(&[most, most, most + 1]),
            Some(first) if first < change => random.pick(&[-1, 0, 0]),
            _ => random.pick(&[-1, 0, most, most + 1]),
        };
        let mut counts = lit;
        counts[strip] = (end - change).clamp(0, most.max(end)) as u32;
        counts
    }

    /// What the first character of a label alone does to a strip.
    fn change_on_the_way(&self, action: &Action, strip: usize, lit: &Counts) -> Option<i64> {
        match action {
            Action::Paint(call) if call.label.len() > 1 => {
                let mut first = call.clone();
                first.label.truncate(1);
                let panel = self.panel_after(&Action::Paint(first));
                let after = lit_dots(self.shape, &panel);
                Some(i64::from(after[strip]) - i64::from(lit[strip]))
            }
            _ => None,
        }
    }

    /// True counts, but for one dot of one strip.
    fn off_by_one(&self, random: &mut Random, action: &Action, lit: Counts) -> Counts {
        let (strip, _) = self.changed_strip(random, action, &lit);
        let mut counts = lit;
        counts[strip] = if random.one_in(2) {
            lit[strip] + 1
        } else {
            lit[strip].saturating_sub(1)
        };
        counts
    }

    /// A strip whose lit dots the call makes more or fewer, if there is one, and by how many more.
    fn changed_strip(&self, random: &mut Random, action: &Action, lit: &Counts) -> (usize, i64) {
        let after = lit_dots(self.shape, &self.panel_after(action));
        let change = |strip: usize| i64::from(after[strip]) - i64::from(lit[strip]);
        let changed: Vec<usize> = (0..STRIPS).filter(|&strip| change(strip) != 0).collect();
        let strip = match (changed.as_slice(), action) {
            ([], Action::Paint(call)) => call.strip.min(31) as usize,
            ([], _) => random.below(STRIPS),
            (strips, _) => random.pick(strips),
        };
        (strip, change(strip))
    }

    fn with_an_edge(&self, random: &mut Random, lit: Counts) -> Counts {
        let most = self.dots_of_a_strip() as u32;
        let mut counts = lit;
        let any = random.below(STRIPS);
        let strip = random.pick(&[0, 31, any]);
        counts[strip] = random.pick(&[
            0,
            most,
            most + 1,
            65_536 + lit[strip],
            0x8000_0000,
            4_294_967_295,
        ]);
        counts
    }

    /// Words that are not there count as 0.
    fn cut_short(&self, random: &mut Random, lit: Counts, scene: &mut Scene) -> Counts {
        let any = random.below(64);
        let length = random.pick(&[0, 0, any]);
        let words = &words_of_counts(&lit)[..length];
        scene.set("counts", words);
        counts::counts_of_words(words)
    }

    fn dots_of_a_strip(&self) -> i64 {
        self.shape.strip_width * self.shape.rows
    }

    /// What the call leaves where no count refuses it.
    fn panel_after(&self, action: &Action) -> Vec<u16> {
        let mut panel = self.panel.clone();
        match action {
            Action::Paint(call) => {
                let _ = label::paint(&self.font.words, call, &mut panel);
            }
            Action::Apply(_, shape) => {
                let sheet = self.sheet.as_ref().expect("a sheet was set");
                let _ = sheet::apply(*shape, &sheet.keep, &sheet.flip, &mut panel);
            }
            Action::Clear(_) => panel[..self.shape.words()].fill(0),
        }
        panel
    }

    fn perform(&mut self, action: &Action) {
        let (panel, counts) = (&mut self.panel, &mut self.counts);
        match action {
            Action::Paint(call) => {
                let _ = counts::paint(&self.font.words, call, panel, counts);
            }
            Action::Apply(_, shape) => {
                let sheet = self.sheet.as_ref().expect("a sheet was set");
                let _ = counts::apply(*shape, &sheet.keep, &sheet.flip, panel, counts);
            }
            Action::Clear(shape) => {
                let _ = counts::clear(*shape, panel, counts);
            }
        }
    }

    /// One of the slices that the call is lent becomes too short for the panel's shape.
    fn shorten_a_slice(&self, random: &mut Random, action: &Action, scene: &mut Scene) {
        let slice = match action {
            Action::Apply(1, _) => random.pick(&["keep1", "flip1", "panel"]),
            Action::Apply(..) => random.pick(&["keep2", "flip2", "panel"]),
            _ => "panel",
        };
        scene.set(slice, &short_slice(random, self.shape));
    }
}

impl SetSheet {
    fn lent(&mut self) -> Sheet<'_> {
        Sheet {
            keep: &mut self.keep,
            flip: &mut self.flip,
        }
    }
}

/// The label becomes one character twice. Where the second lies over the first, dots are turned
/// over and back, so that a count may pass an end on the way.
fn invert_twice(call: &mut Call) {
    call.mode = INVERT;
    if let Some(&first) = call.label.first() {
        call.label = vec![first; 2];
    }
}

/// Mostly small, often with columns behind the last strip; every twelfth is at a limit.
fn scene_shape(random: &mut Random, turn: usize) -> Shape {
    let mut shape = small_shape(random);
    if turn % 12 == 0 {
        let (words_per_row, rows, strip_width) = LIMITS[turn / 12 % LIMITS.len()];
        return Shape {
            words_per_row,
            rows,
            strip_width,
        };
    }
    if random.one_in(3) {
        shape.strip_width = random.between(1, shape.strip_width);
    }
    shape
}

/// The true counts of a panel.
pub fn lit_dots(shape: Shape, panel: &[u16]) -> Counts {
    let mut counts = [0; STRIPS];
    for row in 0..shape.rows {
        for column in 0..32 * shape.strip_width {
            if bit(panel, shape.bit_number((row, column))) {
                counts[(column / shape.strip_width) as usize] += 1;
            }
        }
    }
    counts
}
