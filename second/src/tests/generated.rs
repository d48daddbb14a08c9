//! Generated lists are lists, and they reach every refusal.

use std::cmp::Ordering;
use std::collections::BTreeSet;

use super::answers_to;
use crate::coverage::{Coverage, KINDS};
use crate::cu::program;
use crate::desk::measure_label;
use crate::generate::sheet_scenes::{ONE_LIST, ONE_LIST_ENDS};
use crate::generate::{program_inputs, write_list, Kind};
use crate::list::{parse, Command, Register};
use crate::refusal::number_of;

pub fn generated(kind: Kind, seed: u64, count: usize) -> String {
    let mut list = Vec::new();
    write_list(kind, seed, count, &mut list).expect("a vector takes all bytes");
    String::from_utf8(list).expect("a list is ASCII")
}

#[test]
fn lists_of_several_seeds_are_answered() {
    for kind in Kind::ALL {
        for seed in [0, 2, 77, u64::MAX] {
            let list = generated(kind, seed, 150);
            let outcome = answers_to(&list);
            assert!(outcome.is_ok(), "{kind:?} {seed}: {outcome:?}");
        }
    }
}

#[test]
fn a_seed_makes_one_list() {
    for kind in Kind::ALL {
        assert_eq!(generated(kind, 5, 40), generated(kind, 5, 40));
        assert_ne!(generated(kind, 5, 40), generated(kind, 6, 40));
    }
}

#[test]
fn every_refusal_appears_and_no_other() {
    let counts = [
        (Kind::Fonts, 800),
        (Kind::Indexes, 500),
        (Kind::Labels, 2_000),
        (Kind::Sheets, 600),
        (Kind::Counts, 1_000),
        (Kind::Cu, 1_200),
        (Kind::Desk, 800),
    ];
    let answers: String = counts
        .iter()
        .map(|&(kind, count)| answers_to(&generated(kind, 1, count)).unwrap())
        .collect();
    let coverage = Coverage::of(answers.as_bytes()).unwrap();
    let expected: [(&str, &[u32]); 14] = [
        ("check", &OF_A_FONT),
        ("measure", &[0, 1, 2, 3, 4, 5, 6, 7, 10, 11, 15, 16]),
        ("paint", &OF_PAINTING),
        ("paintlit", &OF_PAINTING_LIT),
        ("gather", &OF_PAINTING),
        ("fresh", &[0, 8]),
        ("join", &[0, 8]),
        ("apply", &[0, 8]),
        ("applylit", &[0, 8, 30]),
        ("clear", &[0, 8, 30]),
        // No offset is over 255, for a raster has at most 256 columns.
        ("convert", &[0, 20, 21, 22, 23, 24, 26, 27]),
        ("program", &[0, 14, 20, 21, 22, 23, 24, 26, 27]),
        ("deskcheck", &OF_A_FILE),
        ("deskmeasure", &OF_A_FILE_AND_LABEL),
    ];
    for (kind, numbers) in expected {
        assert_eq!(coverage.numbers(kind), numbers, "{kind}");
    }
}

const OF_A_FONT: [u32; 10] = [0, 1, 2, 3, 4, 5, 6, 7, 15, 16];
const OF_A_FILE: [u32; 11] = [0, 1, 2, 3, 4, 5, 6, 7, 14, 15, 16];
const OF_A_FILE_AND_LABEL: [u32; 13] = [0, 1, 2, 3, 4, 5, 6, 7, 10, 11, 14, 15, 16];
const OF_PAINTING: [u32; 15] = [0, 1, 2, 3, 4, 5, 6, 7, 8, 9, 10, 11, 12, 15, 16];
const OF_PAINTING_LIT: [u32; 16] = [0, 1, 2, 3, 4, 5, 6, 7, 8, 9, 10, 11, 12, 15, 16, 30];

/// Each kind of list by itself has fonts that are refused for each number.
#[test]
fn every_refusal_of_a_font_appears_in_each_kind_with_fonts() {
    let kinds = [
        (Kind::Fonts, "check"),
        (Kind::Indexes, "check"),
        (Kind::Labels, "paint"),
        (Kind::Sheets, "gather"),
        (Kind::Counts, "paintlit"),
        (Kind::Desk, "deskcheck"),
    ];
    for (kind, call) in kinds {
        let answers = answers_to(&generated(kind, 1980, 1_500)).unwrap();
        let coverage = Coverage::of(answers.as_bytes()).unwrap();
        let numbers = coverage.numbers(call);
        for number in OF_A_FONT {
            assert!(numbers.contains(&number), "{kind:?}: {call} {number}");
        }
    }
}

/// Of the refusals of an index each is given often.
#[test]
fn index_files_are_refused_often_for_each_number() {
    let answers = answers_to(&generated(Kind::Indexes, 1980, 1_000)).unwrap();
    for number in OF_A_FONT {
        let answer = format!("check {number}");
        let given = answers.lines().filter(|&line| line == answer).count();
        assert!(given >= 15, "{answer}: {given}");
    }
}

#[test]
fn every_refusal_of_calls_with_counts_appears_and_no_other() {
    let answers = answers_to(&generated(Kind::Counts, 1980, 1_000)).unwrap();
    let coverage = Coverage::of(answers.as_bytes()).unwrap();
    assert_eq!(coverage.numbers("paintlit"), OF_PAINTING_LIT);
    assert_eq!(coverage.numbers("applylit"), [0, 8, 30]);
    assert_eq!(coverage.numbers("clear"), [0, 8, 30]);
    let of_sheets = ["paintlit", "applylit", "clear", "gather", "fresh"];
    for name in KINDS.iter().filter(|name| !of_sheets.contains(name)) {
        assert!(coverage.numbers(name).is_empty(), "{name}");
    }
}

#[test]
fn every_refusal_of_a_conversion_appears_and_no_other() {
    let answers = answers_to(&generated(Kind::Conversions, 1980, 3_000)).unwrap();
    let coverage = Coverage::of(answers.as_bytes()).unwrap();
    assert_eq!(coverage.numbers("convert"), [0, 20, 21, 22, 23, 24, 26, 27]);
    assert_eq!(coverage.numbers("paint"), [0]);
    for only_here in ["program", "deskcheck", "deskmeasure", "words"] {
        assert!(coverage.numbers(only_here).is_empty(), "{only_here}");
    }
}

#[test]
fn every_refusal_of_the_desk_appears_and_no_other() {
    let answers = answers_to(&generated(Kind::Desk, 1980, 1_000)).unwrap();
    let coverage = Coverage::of(answers.as_bytes()).unwrap();
    assert_eq!(coverage.numbers("deskcheck"), OF_A_FILE);
    assert_eq!(coverage.numbers("deskmeasure"), OF_A_FILE_AND_LABEL);
    assert_eq!(coverage.numbers("words"), [0, 14, 27]);
    let others = KINDS.iter().filter(|name| !name.starts_with("desk"));
    for name in others.filter(|&&name| name != "words") {
        assert!(coverage.numbers(name).is_empty(), "{name}");
    }
}

/// One call of a desk list, and what it answers.
struct Measured {
    file: Vec<u8>,
    x: i64,
    label: Vec<u8>,
    number: i64,
    substitutes: i64,
}

fn desk_measures() -> Vec<Measured> {
    let mut file = Vec::new();
    let mut measures = Vec::new();
    for line in generated(Kind::Desk, 1980, 1_000).lines() {
        match parse(line).unwrap().expect("every line has a command") {
            Command::SetFile(bytes) => file = bytes,
            Command::DeskMeasure { x, label } => {
                let outcome = measure_label(&file, x, &label);
                measures.push(Measured {
                    file: file.clone(),
                    x,
                    label,
                    number: number_of(&outcome).into(),
                    substitutes: outcome.map_or(0, |pen| pen.substitutes),
                });
            }
            _ => (),
        }
    }
    measures
}

#[test]
fn the_desk_is_handed_files_of_every_sort() {
    let measures = desk_measures();
    for kerned in [false, true] {
        let is_of_it =
            |asked: &&Measured| asked.number == 0 && (asked.file[0] & 0x10 != 0) == kerned;
        let of_it = measures.iter().filter(is_of_it);
        let with_substitutes: BTreeSet<bool> = of_it.map(|asked| asked.substitutes > 0).collect();
        assert_eq!(with_substitutes.len(), 2, "kerned: {kerned}");
    }
    let lengths: BTreeSet<usize> = measures.iter().map(|asked| asked.file.len()).collect();
    for length in 0..30 {
        assert!(lengths.contains(&length), "a file of {length} bytes");
    }
}

#[test]
fn the_desk_is_handed_pens_and_labels_at_their_limits_and_past_them() {
    let measures = desk_measures();
    for (x, number) in [(-1_025, 10), (-1_024, 0), (1_023, 0), (1_024, 10)] {
        let appears = measures
            .iter()
            .any(|asked| (asked.x, asked.number) == (x, number));
        assert!(appears, "x of {x}");
    }
    for (length, number) in [(0, 0), (1, 0), (64, 0), (65, 11), (1_000, 11)] {
        let mut answered = measures
            .iter()
            .map(|asked| (asked.label.len(), asked.number));
        assert!(
            answered.any(|pair| pair == (length, number)),
            "{length} bytes"
        );
    }
}

/// For each call of `words`: whether its bytes are odd in number, and how the room for the words
/// compares with their number.
fn desk_rooms() -> BTreeSet<(bool, Ordering)> {
    let (mut bytes, mut room) = (0, 0);
    let mut rooms = BTreeSet::new();
    for line in generated(Kind::Desk, 1980, 1_000).lines() {
        match parse(line).unwrap().expect("every line has a command") {
            Command::SetFile(file) => bytes = file.len(),
            Command::SetWords(Register::Out, words) => room = words.len(),
            Command::Words => {
                rooms.insert((bytes % 2 == 1, room.cmp(&(bytes / 2))));
            }
            _ => (),
        }
    }
    rooms
}

#[test]
fn the_desk_is_lent_too_few_words_just_enough_and_more_for_any_bytes() {
    let rooms = desk_rooms();
    for odd in [false, true] {
        for room in [Ordering::Less, Ordering::Equal, Ordering::Greater] {
            assert!(rooms.contains(&(odd, room)), "odd: {odd}, room: {room:?}");
        }
    }
}

#[test]
fn every_refusal_of_the_program_appears_and_no_other() {
    let numbers: BTreeSet<u32> = program_inputs(1980, 432)
        .map(|input| number_of(&program(&input)))
        .collect();
    let expected = [0, 14, 20, 21, 22, 23, 24, 26, 27];
    assert_eq!(numbers, BTreeSet::from(expected));
}

/// What all registers whose name begins so were shown to hold.
fn shown<'a>(answers: &'a str, name: &str) -> BTreeSet<&'a str> {
    let lines = answers.lines().filter(|line| line.starts_with(name));
    lines
        .filter_map(|line| line.split_once(' '))
        .map(|(_, words)| words)
        .collect()
}

#[test]
fn one_list_of_calls_leaves_one_sheet_and_one_panel() {
    let list = generated(Kind::Sheets, 3, 500);
    let scenes: Vec<&str> = list.split(ONE_LIST).skip(1).collect();
    assert_eq!(scenes.len(), 500);
    for scene in scenes {
        let (calls, _) = scene.split_once(ONE_LIST_ENDS).expect("a scene goes on");
        let answers = answers_to(calls).unwrap();
        for name in ["keep", "flip", "panel"] {
            assert_eq!(shown(&answers, name).len(), 1, "{name} after {calls}");
        }
    }
}
