//! Sheets against painting, over random lists of calls.

use std::rc::Rc;

use crate::generate::call_lists::{exchanged, random_calls, FontCall};
use crate::generate::font_files::good_font;
use crate::generate::label_calls::{good_slice, small_shape};
use crate::generate::random::Random;
use crate::label::{paint, Pen};
use crate::panel::Shape;
use crate::refusal::Refused;
use crate::sheet::{apply, fresh, gather, join, Sheet};

type Reply = Result<Pen, Refused>;

#[derive(Debug, PartialEq, Eq)]
pub struct OwnSheet {
    pub keep: Vec<u16>,
    pub flip: Vec<u16>,
}

impl OwnSheet {
    fn lent(&mut self) -> Sheet<'_> {
        Sheet {
            keep: &mut self.keep,
            flip: &mut self.flip,
        }
    }
}

/// Calls in mixed modes and fonts, for one shape; some of them are refused.
pub struct Round {
    pub shape: Shape,
    pub calls: Vec<FontCall>,
}

impl Round {
    pub fn random(random: &mut Random) -> Round {
        let shape = small_shape(random);
        let font = Rc::new(good_font(random));
        let calls = random_calls(random, shape, font);
        Round { shape, calls }
    }

    pub fn gathered(&self, calls: &[FontCall]) -> (OwnSheet, Vec<Reply>) {
        let mut sheet = OwnSheet {
            keep: vec![0x1111; self.shape.words()],
            flip: vec![0x2222; self.shape.words()],
        };
        fresh(self.shape, sheet.lent()).unwrap();
        let replies = calls
            .iter()
            .map(|given| gather(&given.font.words, &given.call, sheet.lent()))
            .collect();
        (sheet, replies)
    }
}

fn painted(calls: &[FontCall], panel: &mut [u16]) -> Vec<Reply> {
    calls
        .iter()
        .map(|given| paint(&given.font.words, &given.call, panel))
        .collect()
}

#[test]
fn a_sheet_applied_leaves_what_painting_in_turn_leaves() {
    let mut random = Random::from_seed(11);
    for _ in 0..400 {
        let round = Round::random(&mut random);
        let mut panel = good_slice(&mut random, round.shape);
        let mut applied = panel.clone();
        let paint_replies = painted(&round.calls, &mut panel);
        let (sheet, gather_replies) = round.gathered(&round.calls);
        apply(round.shape, &sheet.keep, &sheet.flip, &mut applied).unwrap();
        assert_eq!(applied, panel);
        assert_eq!(gather_replies, paint_replies);
    }
}

#[test]
fn the_sheets_of_a_cut_list_join_to_the_whole_lists() {
    let mut random = Random::from_seed(12);
    for _ in 0..200 {
        let round = Round::random(&mut random);
        let (whole, _) = round.gathered(&round.calls);
        for cut in 0..=round.calls.len() {
            let (mut first, _) = round.gathered(&round.calls[..cut]);
            let (second, _) = round.gathered(&round.calls[cut..]);
            join(round.shape, first.lent(), &second.keep, &second.flip).unwrap();
            assert_eq!(first, whole);
        }
    }
}

#[test]
fn calls_for_different_strips_may_change_places() {
    let mut random = Random::from_seed(13);
    for _ in 0..400 {
        let round = Round::random(&mut random);
        let exchanged = exchanged(&mut random, &round.calls);
        assert_eq!(round.gathered(&round.calls).0, round.gathered(&exchanged).0);
        let mut panel = good_slice(&mut random, round.shape);
        let mut other_panel = panel.clone();
        painted(&round.calls, &mut panel);
        painted(&exchanged, &mut other_panel);
        assert_eq!(panel, other_panel);
    }
}
