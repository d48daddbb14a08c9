//! Index files of both kinds: good ones, ones at a limit and one past it, and damaged ones.

mod damage;
mod limits;
mod parts;

use super::damage::edge_word;
use super::MadeFont;
use crate::generate::random::Random;
use damage::{wrong_from, DAMAGES, FAULTS};
use limits::{body_count, code_past_the_last_pair, CUTS, LIMITS};
use parts::{good_parts, parts_of_few, small_parts, IndexParts};

/// An index of any sort; the number chooses the sort.
pub fn any_index(random: &mut Random, number: usize) -> MadeFont {
    let turn = number / 10;
    match number % 10 {
        0 => index_at_limit(random, turn),
        1 => with_one_word_altered(random, turn),
        2 => cut_at_each_length(random, turn),
        3 => damaged_once(random, turn),
        4 => damaged_often(random),
        5 => wrong_from_a_test_on(random, turn),
        6 => refused_index(random, turn),
        _ => good_index(random),
    }
}

pub fn good_index(random: &mut Random) -> MadeFont {
    let parts = good_parts(random);
    parts.made(random)
}

/// An index that is refused for each of its numbers in turn, and by nothing that comes before.
pub fn refused_index(random: &mut Random, turn: usize) -> MadeFont {
    let mut parts = parts_of_few(random, 3);
    let fault = FAULTS[turn % FAULTS.len()];
    fault(random, &mut parts);
    parts.made(random)
}

pub fn index_of_too_many_bodies(random: &mut Random) -> MadeFont {
    let count = random.pick(&[0, 129, 255, 256, 65_535]);
    let parts = body_count(random, count);
    parts.made(random)
}

pub fn index_without_a_picture(random: &mut Random) -> MadeFont {
    let parts = code_past_the_last_pair(random);
    parts.made(random)
}

fn index_at_limit(random: &mut Random, turn: usize) -> MadeFont {
    let limit = LIMITS[turn % LIMITS.len()];
    let parts = limit(random);
    parts.made(random)
}

/// Each word in turn becomes a near one, or one at an end of some range.
fn with_one_word_altered(random: &mut Random, turn: usize) -> MadeFont {
    let mut font = small_parts(random).made(random);
    let place = turn % font.words.len();
    font.words[place] = edge_word(random, font.words[place]);
    font
}

fn cut_at_each_length(random: &mut Random, turn: usize) -> MadeFont {
    let mut font = small_parts(random).made(random);
    let length = turn % font.words.len();
    font.words.truncate(length);
    font
}

fn damaged_once(random: &mut Random, turn: usize) -> MadeFont {
    let mut parts = good_parts(random);
    let damage = DAMAGES[turn % DAMAGES.len()];
    damage(random, &mut parts);
    parts.made(random)
}

/// Several faults at once show the order of the tests.
fn damaged_often(random: &mut Random) -> MadeFont {
    let mut parts = good_parts(random);
    for _ in 0..random.between(2, 4) {
        let damage = random.pick(&DAMAGES);
        damage(random, &mut parts);
    }
    let mut font = parts.made(random);
    if random.one_in(4) {
        let length = random.below(font.words.len() + 1);
        font.words.truncate(length);
    }
    font
}

/// All is wrong from one test on and nothing before it. Some files end where a test looks for the
/// words behind.
fn wrong_from_a_test_on(random: &mut Random, turn: usize) -> MadeFont {
    let first = turn % (FAULTS.len() + 1);
    let parts = parts_wrong_from(random, first);
    let mut font = parts.made(random);
    if random.one_in(3) {
        let cut = random.pick(&CUTS);
        font.words.truncate(cut(&parts));
    }
    font
}

fn parts_wrong_from(random: &mut Random, first: usize) -> IndexParts {
    let mut parts = parts_of_few(random, 3);
    wrong_from(random, first, &mut parts);
    parts
}

/// All is wrong from the first of the faults on.
#[cfg(test)]
pub fn index_wrong_from(random: &mut Random, first: usize) -> MadeFont {
    let parts = parts_wrong_from(random, first);
    parts.made(random)
}
