//! Written files against the rasters they come from, by index into the CU words alone.

use super::generated::generated;
use crate::cu::convert;
use crate::font::{read, Font};
use crate::generate::cu_files::{good_file, special_file, SPECIALS};
use crate::generate::random::Random;
use crate::generate::Kind;
use crate::label::Call;
use crate::list::{parse, words_text, Command, Register};
use crate::replay::Replay;

/// A character's words, its dots counted from the raster's corner.
struct Raster<'a> {
    code: i64,
    spacing: i64,
    rows: Vec<&'a [u16]>,
}

impl Raster<'_> {
    fn all(cu: &[u16]) -> Vec<Raster<'_>> {
        let (height, width) = (usize::from(cu[0]), usize::from(cu[1]));
        let size = 2 + height * width;
        (2..cu.len())
            .step_by(size)
            .map(|start| Raster {
                code: cu[start].into(),
                spacing: cu[start + 1].into(),
                rows: cu[start + 2..start + size].chunks(width).collect(),
            })
            .collect()
    }

    fn dots(&self) -> Vec<(i64, i64)> {
        let mut dots = Vec::new();
        for (row, words) in self.rows.iter().enumerate() {
            let text: String = words.iter().map(|word| format!("{word:016b}")).collect();
            for (column, _) in text.match_indices('1') {
                dots.push((row as i64, column as i64));
            }
        }
        dots
    }
}

/// The dots of each character as x and y from the origin, in ascending order of both.
fn dots_from_origin(rasters: &[Raster]) -> Vec<Vec<(i64, i64)>> {
    let letter = rasters.iter().find(|raster| raster.code == 65).unwrap();
    let letter_dots = letter.dots();
    let lowest = letter_dots.iter().map(|dot| dot.0).max().unwrap();
    let in_lowest = letter_dots.iter().filter(|dot| dot.0 == lowest);
    let leftmost = in_lowest.map(|dot| dot.1).min().unwrap();
    rasters
        .iter()
        .map(|raster| {
            let dots = raster.dots().into_iter();
            sorted(dots.map(|(i, j)| (j - leftmost, lowest - i)).collect())
        })
        .collect()
}

fn sorted(mut dots: Vec<(i64, i64)>) -> Vec<(i64, i64)> {
    dots.sort_unstable();
    dots
}

/// The dots that the written font shows for a code, from the pen and the baseline.
fn dots_shown(font: &Font, code: i64) -> Vec<(i64, i64)> {
    let glyph = font.glyph(code);
    let mut dots = Vec::new();
    for row in 0..glyph.height() {
        for column in 0..glyph.columns {
            if glyph.dot(row, column) {
                dots.push((glyph.place + column, glyph.ascent() - 1 - row));
            }
        }
    }
    sorted(dots)
}

fn compare(cu: &[u16], written: &[u16]) {
    let font = read(written).unwrap_or_else(|refused| panic!("{refused:?}"));
    let rasters = Raster::all(cu);
    let dots = dots_from_origin(&rasters);
    for (raster, expected) in rasters.iter().zip(&dots) {
        let glyph = font.glyph(raster.code);
        assert!(!glyph.substitute);
        assert_eq!(glyph.spacing, raster.spacing);
        assert_eq!(&dots_shown(&font, raster.code), expected);
    }
    compare_box(written, &font, &dots.concat());
    compare_spacings(written, &rasters);
    compare_absent_codes(written, &font, &rasters);
}

/// The least box around the dots: its left, right, bottom and top.
fn least_box(dots: &[(i64, i64)]) -> [i64; 4] {
    let xs = dots.iter().map(|dot| dot.0);
    let ys = dots.iter().map(|dot| dot.1);
    [
        xs.clone().min().unwrap(),
        xs.max().unwrap(),
        ys.clone().min().unwrap(),
        ys.max().unwrap(),
    ]
}

/// Every place in that box, which is what the dummy shows.
fn filled_box(dots: &[(i64, i64)]) -> Vec<(i64, i64)> {
    let [left, right, bottom, top] = least_box(dots);
    (left..=right)
        .flat_map(|x| (bottom..=top).map(move |y| (x, y)))
        .collect()
}

/// The box words, and the dummy.
fn compare_box(written: &[u16], font: &Font, dots: &[(i64, i64)]) {
    let [left, right, bottom, top] = least_box(dots);
    let box_words = [left, bottom, right - left + 1, top - bottom + 1];
    assert_eq!(written[4..8], box_words.map(|number| number as i16 as u16));
    let dummy = font.glyph(256);
    assert_eq!(dummy.ascent(), top + 1);
    assert_eq!(dummy.height(), top - bottom + 1);
    assert_eq!(dots_shown(font, 256), filled_box(dots));
}

fn compare_spacings(written: &[u16], rasters: &[Raster]) {
    let spacings: Vec<i64> = rasters.iter().map(|raster| raster.spacing).collect();
    let greatest = *spacings.iter().max().unwrap();
    let fixed = spacings.iter().all(|&spacing| spacing == spacings[0]);
    assert_eq!(i64::from(written[3]), greatest);
    assert_eq!(written[0], if fixed { 0xB000 } else { 0x9000 });
    assert_eq!(i64::from(written[written.len() - 1]), greatest);
}

fn compare_absent_codes(written: &[u16], font: &Font, rasters: &[Raster]) {
    let codes = || rasters.iter().map(|raster| raster.code);
    assert_eq!(i64::from(written[1]), codes().min().unwrap());
    assert_eq!(i64::from(written[2]), codes().max().unwrap());
    for code in 0..=255 {
        let present = codes().any(|present| present == code);
        assert_eq!(font.glyph(code).substitute, !present);
    }
}

fn convert_and_compare(cu: &[u16]) -> bool {
    let mut output = vec![0xEEEE; 70_000];
    let converted = convert(cu, &mut output);
    let written = converted.unwrap_or(0);
    assert!(output[written..].iter().all(|&word| word == 0xEEEE));
    if converted.is_ok() {
        compare(cu, &output[..written]);
    }
    converted.is_ok()
}

#[test]
fn good_files_show_the_dots_of_their_rasters() {
    let mut random = Random::from_seed(21);
    for _ in 0..400 {
        let cu = good_file(&mut random).words();
        assert!(convert_and_compare(&cu));
    }
}

#[test]
fn accepted_files_at_the_limits_show_the_dots_of_their_rasters() {
    let mut random = Random::from_seed(22);
    let accepted = (0..SPECIALS.len()).filter(|&turn| {
        let cu = special_file(&mut random, turn).words();
        convert_and_compare(&cu)
    });
    assert_eq!(accepted.count(), 14);
}

#[test]
fn an_output_one_word_short_is_refused_and_stays() {
    let mut random = Random::from_seed(23);
    for _ in 0..100 {
        let cu = good_file(&mut random).words();
        let needed = convert(&cu, &mut vec![0; 70_000]).unwrap();
        assert_eq!(convert(&cu, &mut vec![0; needed]), Ok(needed));
        let mut short = vec![0xEEEE; needed - 1];
        assert_eq!(convert(&cu, &mut short).map_err(|r| r.0), Err(27));
        assert!(short.iter().all(|&word| word == 0xEEEE));
    }
}

/// The commands of the list of conversions that both programs answer.
fn conversions() -> Vec<Command> {
    let list = generated(Kind::Conversions, 1980, 3_000);
    list.lines()
        .filter_map(|line| parse(line).unwrap())
        .collect()
}

#[test]
fn the_files_of_the_list_show_the_dots_of_their_rasters() {
    let accepted = conversions().into_iter().filter(|command| match command {
        Command::SetWords(Register::Cu, cu) => convert_and_compare(cu),
        _ => false,
    });
    assert!(accepted.count() > 1_500);
}

/// Paints a label by the rasters alone, with no font between, and says what the call answers.
fn paint_rasters(cu: &[u16], call: &Call, panel: &mut [u16]) -> String {
    let rasters = Raster::all(cu);
    let dots = dots_from_origin(&rasters);
    let block = filled_box(&dots.concat());
    let greatest = rasters.iter().map(|raster| raster.spacing).max().unwrap();
    let (mut pen, mut substitutes) = (call.x, 0);
    for &code in &call.label {
        let drawn = rasters.iter().zip(&dots);
        let mut drawn = drawn.filter(|(raster, _)| raster.code == i64::from(code));
        let (dots, spacing) = match drawn.next() {
            Some((raster, dots)) => (dots, raster.spacing),
            None => {
                substitutes += 1;
                (&block, greatest)
            }
        };
        for (x, y) in dots {
            change_dot(call, panel, pen + x, call.y - 1 - y);
        }
        pen += spacing;
    }
    format!("paint 0 {pen} {substitutes}")
}

fn change_dot(call: &Call, panel: &mut [u16], x: i64, row: i64) {
    let shape = call.shape;
    if x < 0 || x >= shape.strip_width || row < 0 || row >= shape.rows {
        return;
    }
    let column = call.strip * shape.strip_width + x;
    let word = &mut panel[(row * shape.words_per_row + column / 16) as usize];
    let mask = 0x8000 >> (column % 16);
    match call.mode {
        0 => *word |= mask,
        1 => *word &= !mask,
        _ => *word ^= mask,
    }
}

#[test]
fn the_labels_of_the_list_paint_the_dots_of_the_rasters() {
    let mut replay = Replay::default();
    let (mut cu, mut panel) = (Vec::new(), Vec::new());
    let (mut painted, mut altered) = (0, 0);
    for command in conversions() {
        match &command {
            Command::SetWords(Register::Cu, words) => cu = words.clone(),
            Command::SetWords(Register::Panel, words) => panel = words.clone(),
            Command::Paint(call) => {
                let before = panel.clone();
                let expected = paint_rasters(&cu, call, &mut panel);
                assert_eq!(replay.perform(command), Some(expected));
                let shown = replay.perform(Command::Show(Register::Panel));
                assert_eq!(shown, Some(format!("panel{}", words_text(&panel))));
                painted += 1;
                altered += usize::from(panel != before);
                continue;
            }
            _ => (),
        }
        replay.perform(command);
    }
    assert!(painted > 3_000 && altered > 1_000, "{painted} {altered}");
}
