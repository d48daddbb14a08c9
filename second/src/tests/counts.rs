//! Painting, applying and clearing with counts.

use super::paper::{FONT, SHAPE};
use super::sheets::Round;
use crate::counts::{apply, clear, counts_of_words, paint, words_of_counts, Counts};
use crate::generate::call_lists::{exchanged, FontCall};
use crate::generate::label_calls::good_slice;
use crate::generate::random::Random;
use crate::label::{Call, Pen};
use crate::panel::Shape;
use crate::refusal::{number_of, Refused};

fn call(mode: i64, label: &[u8]) -> Call {
    Call {
        shape: SHAPE,
        strip: 31,
        x: 1,
        y: 2,
        mode,
        label: label.to_vec(),
    }
}

/// Zeros, with this count for a strip.
fn count_of(strip: usize, count: u32) -> Counts {
    let mut counts = [0; 32];
    counts[strip] = count;
    counts
}

/// The lit dots of each strip, by the panel's rows as texts of digits.
pub fn true_counts(shape: Shape, panel: &[u16]) -> Counts {
    let width = shape.strip_width as usize;
    let mut counts = [0; 32];
    for row in panel[..shape.words()].chunks(shape.words_per_row as usize) {
        let text: String = row.iter().map(|word| format!("{word:016b}")).collect();
        for (strip, count) in counts.iter_mut().enumerate() {
            let dots = &text[strip * width..(strip + 1) * width];
            *count += dots.matches('1').count() as u32;
        }
    }
    counts
}

#[test]
fn clearing_subtracts_what_was_lit() {
    let mut panel = vec![0; 24];
    panel[7] = 0x0002;
    let mut counts = [0; 32];
    assert_eq!(clear(SHAPE, &mut panel, &mut counts), Err(Refused(30)));
    assert_eq!((panel[7], counts), (0x0002, [0; 32]));
    counts = count_of(31, 2);
    assert_eq!(clear(SHAPE, &mut panel, &mut counts), Ok(()));
    assert_eq!((panel, counts), (vec![0; 24], count_of(31, 1)));
}

#[test]
fn clearing_leaves_the_words_behind_the_panel() {
    let mut panel = vec![0xFFFF; 26];
    let mut counts = [12; 32];
    assert_eq!(clear(SHAPE, &mut panel, &mut counts), Ok(()));
    assert_eq!(panel, [vec![0; 24], vec![0xFFFF; 2]].concat());
    assert_eq!(counts, [0; 32]);
}

#[test]
fn a_count_is_judged_at_the_end_of_the_call() {
    let mut panel = vec![0; 24];
    let mut counts = count_of(31, 12);
    let outcome = paint(&FONT, &call(2, &[66, 66]), &mut panel, &mut counts);
    let pen = Pen {
        x: 1,
        substitutes: 0,
    };
    assert_eq!(outcome, Ok(pen));
    assert_eq!((panel, counts), (vec![0; 24], count_of(31, 12)));
}

#[test]
fn a_count_over_the_dots_of_any_strip_is_refused() {
    for strip in 0..32 {
        for (count, number) in [(12, 0), (13, 30), (65_536, 30), (u32::MAX, 30)] {
            let given = count_of(strip, count);
            let (mut panel, mut counts) = (vec![0; 24], given);
            let label = call(0, &[]);
            let outcome = paint(&FONT, &label, &mut panel, &mut counts);
            assert_eq!(number_of(&outcome), number);
            let outcome = clear(SHAPE, &mut panel, &mut counts);
            assert_eq!(number_of(&outcome), number);
            let (keep, flip) = (vec![0xFFFF; 24], vec![0; 24]);
            let outcome = apply(SHAPE, &keep, &flip, &mut panel, &mut counts);
            assert_eq!(number_of(&outcome), number);
            assert_eq!((panel, counts), (vec![0; 24], given));
        }
    }
}

#[test]
fn no_count_leaves_what_is_allowed() {
    // The dummy fills the strip: its 12 dots are gained or lost.
    for (mode, word, given, after) in [
        (0, 0, 0, Some(12)),
        (0, 0, 1, None),
        (1, 0xF, 12, Some(0)),
        (1, 0xF, 11, None),
        (2, 0x3, 6, Some(6)),
        (2, 0x1, 6, Some(12)),
        (2, 0x1, 7, None),
        (2, 0x7, 6, Some(0)),
        (2, 0x7, 5, None),
    ] {
        let mut before = vec![0; 24];
        for place in [7, 15, 23] {
            before[place] = word;
        }
        let (mut panel, mut counts) = (before.clone(), count_of(31, given));
        let outcome = paint(&FONT, &call(mode, &[67]), &mut panel, &mut counts);
        match after {
            Some(after) => assert_eq!((number_of(&outcome), counts[31]), (0, after)),
            None => {
                assert_eq!(outcome, Err(Refused(30)));
                assert_eq!((panel, counts[31]), (before, given));
            }
        }
    }
}

#[test]
fn other_tests_come_before_the_counts() {
    let given = count_of(0, 13);
    let label = call(0, &[66]);
    let spoiled = [
        (
            8,
            Call {
                shape: Shape {
                    strip_width: 5,
                    ..SHAPE
                },
                ..label.clone()
            },
        ),
        (
            9,
            Call {
                strip: 32,
                ..label.clone()
            },
        ),
        (
            10,
            Call {
                x: 1_024,
                ..label.clone()
            },
        ),
        (
            11,
            Call {
                label: vec![66; 65],
                ..label.clone()
            },
        ),
        (
            12,
            Call {
                mode: 3,
                ..label.clone()
            },
        ),
        (30, label.clone()),
    ];
    for (number, call) in spoiled {
        let (mut panel, mut counts) = (vec![0; 24], given);
        let outcome = paint(&FONT, &call, &mut panel, &mut counts);
        assert_eq!(outcome, Err(Refused(number)));
        assert_eq!((panel, counts), (vec![0; 24], given));
    }
    let mut counts = given;
    let outcome = paint(&FONT[..26], &label, &mut [0; 24], &mut counts);
    assert_eq!((outcome, counts), (Err(Refused(5)), given));
    let outcome = clear(SHAPE, &mut [0; 23], &mut counts);
    assert_eq!((outcome, counts), (Err(Refused(8)), given));
    for [keep, flip, panel] in [[23, 24, 24], [24, 23, 24], [24, 24, 23]] {
        let mut panel = vec![0; panel];
        let outcome = apply(
            SHAPE,
            &vec![0; keep],
            &vec![0; flip],
            &mut panel,
            &mut counts,
        );
        assert_eq!((outcome, counts), (Err(Refused(8)), given));
    }
}

#[test]
fn dots_of_no_strip_are_counted_nowhere() {
    let shape = Shape {
        words_per_row: 3,
        rows: 2,
        strip_width: 1,
    };
    let mut panel = vec![0, 0, 0xFFFF, 0, 0, 0xFFFF];
    let mut counts = [0; 32];
    assert_eq!(clear(shape, &mut panel, &mut counts), Ok(()));
    assert_eq!((panel.clone(), counts), (vec![0; 6], [0; 32]));
    let flip = [0x8000, 1, 0x1234, 0, 1, 0x4321];
    assert_eq!(
        apply(shape, &[0; 6], &flip, &mut panel, &mut counts),
        Ok(())
    );
    let mut expected = count_of(0, 1);
    expected[31] = 2;
    assert_eq!((panel, counts), (flip.to_vec(), expected));
}

#[test]
fn words_of_counts_have_the_high_one_first() {
    let mut counts = count_of(0, 0x0001_0002);
    counts[31] = 4_294_967_295;
    let words = words_of_counts(&counts);
    let expected = [vec![1, 2], vec![0; 60], vec![0xFFFF; 2]].concat();
    assert_eq!(words, expected);
    assert_eq!(counts_of_words(&words), counts);
    assert_eq!(counts_of_words(&words[..1]), count_of(0, 0x0001_0000));
    assert_eq!(counts_of_words(&[]), [0; 32]);
}

/// Calls, a panel for them, and its true counts.
fn random_round(random: &mut Random) -> (Round, Vec<u16>, Counts) {
    let round = Round::random(random);
    let panel = good_slice(random, round.shape);
    let counts = true_counts(round.shape, &panel);
    (round, panel, counts)
}

fn painted(calls: &[FontCall], panel: &mut [u16], counts: &mut Counts) -> Vec<OwnReply> {
    let mut replies = Vec::new();
    for given in calls {
        let outcome = paint(&given.font.words, &given.call, panel, counts);
        let strip = given.call.strip;
        let own_count = counts.get(strip as usize).copied();
        replies.push((strip, outcome, own_count));
    }
    replies
}

/// The strip of a call, its reply, and the count of that strip behind it, if there is one.
type OwnReply = (i64, Result<Pen, Refused>, Option<u32>);

#[test]
fn true_counts_stay_true_and_refuse_nothing() {
    let mut random = Random::from_seed(31);
    for _ in 0..300 {
        let (round, mut panel, mut counts) = random_round(&mut random);
        for _ in 0..4 {
            let replies = painted(&round.calls, &mut panel, &mut counts);
            assert!(replies.iter().all(|reply| reply.1 != Err(Refused(30))));
            assert_eq!(counts, true_counts(round.shape, &panel));
            let outcome = match random.below(3) {
                0 => clear(round.shape, &mut panel, &mut counts),
                1 => {
                    let (sheet, _) = round.gathered(&round.calls);
                    apply(
                        round.shape,
                        &sheet.keep,
                        &sheet.flip,
                        &mut panel,
                        &mut counts,
                    )
                }
                _ => {
                    let keep = good_slice(&mut random, round.shape);
                    let flip = good_slice(&mut random, round.shape);
                    apply(round.shape, &keep, &flip, &mut panel, &mut counts)
                }
            };
            assert_eq!(outcome, Ok(()));
            assert_eq!(counts, true_counts(round.shape, &panel));
        }
    }
}

#[test]
fn an_applied_sheet_leaves_the_counts_of_painting_in_turn() {
    let mut random = Random::from_seed(32);
    for _ in 0..400 {
        let (round, mut panel, mut counts) = random_round(&mut random);
        let (mut other_panel, mut other_counts) = (panel.clone(), counts);
        let replies = painted(&round.calls, &mut panel, &mut counts);
        let (sheet, gather_replies) = round.gathered(&round.calls);
        let outcome = apply(
            round.shape,
            &sheet.keep,
            &sheet.flip,
            &mut other_panel,
            &mut other_counts,
        );
        assert_eq!(outcome, Ok(()));
        assert_eq!((other_panel, other_counts), (panel, counts));
        let replies: Vec<_> = replies.into_iter().map(|reply| reply.1).collect();
        assert_eq!(gather_replies, replies);
    }
}

/// Counts that are near the ends of what is allowed, and now and then past them.
fn untrue_counts(random: &mut Random, shape: Shape) -> Counts {
    let most = (shape.strip_width * shape.rows) as u32;
    let past = u32::from(random.one_in(4));
    let mut counts = [0; 32];
    for count in &mut counts {
        *count = random.pick(&[0, 1, most / 2, most - 1, most]);
    }
    counts[random.below(32)] = most + past;
    counts
}

/// From any counts, true or not.
#[test]
fn calls_for_different_strips_may_change_places() {
    let mut random = Random::from_seed(33);
    let mut refused = 0;
    for turn in 0..600 {
        let (round, mut panel, mut counts) = random_round(&mut random);
        if turn % 2 == 1 {
            counts = untrue_counts(&mut random, round.shape);
        }
        let (mut other_panel, mut other_counts) = (panel.clone(), counts);
        let exchanged = exchanged(&mut random, &round.calls);
        let mut replies = painted(&round.calls, &mut panel, &mut counts);
        let mut other_replies = painted(&exchanged, &mut other_panel, &mut other_counts);
        assert_eq!((&other_panel, other_counts), (&panel, counts));
        replies.sort_by_key(|reply| reply.0);
        other_replies.sort_by_key(|reply| reply.0);
        assert_eq!(other_replies, replies);
        refused += usize::from(replies.iter().any(|reply| reply.1 == Err(Refused(30))));
    }
    assert!(refused > 50, "{refused}");
}

#[test]
fn counts_and_painting_without_them_agree() {
    let mut random = Random::from_seed(34);
    for _ in 0..200 {
        let (round, mut panel, mut counts) = random_round(&mut random);
        let mut plain = panel.clone();
        for given in &round.calls {
            let outcome = paint(&given.font.words, &given.call, &mut panel, &mut counts);
            let plainly = crate::label::paint(&given.font.words, &given.call, &mut plain);
            assert_eq!((outcome, &panel), (plainly, &plain));
        }
    }
}
