//! Generated lists of calls with counts reach the ends of what is allowed, and pass them.

use std::collections::BTreeSet;

use super::counts::true_counts;
use super::generated::generated;
use crate::counts::{counts_of_words, paint};
use crate::generate::count_scenes::LIMITS;
use crate::generate::Kind;
use crate::label::Call;
use crate::list::{parse, Command, Register, SheetName};
use crate::panel::Shape;
use crate::refusal::Refused;
use crate::replay::Replay;

/// The first calls of the list that the programs are compared on.
const CALLS: usize = 2_000;

/// A call with counts, what it was lent, and what it answered and left.
struct Seen {
    call: Command,
    font: Vec<u16>,
    number: u32,
    before: Registers,
    after: Registers,
    /// The panel that is left where no count refuses the call.
    uncounted: Vec<u16>,
}

struct Registers {
    panel: Vec<u16>,
    counts: Vec<u16>,
    sheets: [Vec<u16>; 4],
}

const SHEET_SLICES: [Register; 4] = [
    Register::Keep1,
    Register::Flip1,
    Register::Keep2,
    Register::Flip2,
];

impl Registers {
    fn of(replay: &mut Replay) -> Registers {
        Registers {
            panel: shown(replay, Register::Panel),
            counts: shown(replay, Register::Counts),
            sheets: SHEET_SLICES.map(|register| shown(replay, register)),
        }
    }
}

/// What is shown of a register is the command that sets it so.
fn shown(replay: &mut Replay, register: Register) -> Vec<u16> {
    let answer = replay.perform(Command::Show(register)).unwrap();
    match parse(&answer) {
        Ok(Some(Command::SetWords(_, words))) => words,
        other => panic!("{other:?}"),
    }
}

/// The panel after the same call without counts. The register is set back.
fn uncounted(replay: &mut Replay, call: &Command) -> Vec<u16> {
    let panel = shown(replay, Register::Panel);
    match call {
        Command::PaintLit(call) => replay.perform(Command::Paint(call.clone())),
        Command::ApplyLit(name, shape) => replay.perform(Command::Apply(*name, *shape)),
        _ => return vec![0; panel.len()],
    };
    let after = shown(replay, Register::Panel);
    replay.perform(Command::SetWords(Register::Panel, panel));
    after
}

fn calls_seen() -> Vec<Seen> {
    let mut replay = Replay::default();
    let mut seen = Vec::new();
    for line in generated(Kind::Counts, 1980, CALLS).lines() {
        let command = parse(line).unwrap().expect("every line has a command");
        let has_counts = matches!(
            command,
            Command::PaintLit(_) | Command::ApplyLit(..) | Command::Clear(_)
        );
        if !has_counts {
            replay.perform(command);
            continue;
        }
        let before = Registers::of(&mut replay);
        let uncounted = uncounted(&mut replay, &command);
        let answer = replay.perform(command.clone()).unwrap();
        seen.push(Seen {
            call: command,
            font: shown(&mut replay, Register::Font),
            number: answer.split(' ').nth(1).unwrap().parse().unwrap(),
            before,
            after: Registers::of(&mut replay),
            uncounted,
        });
    }
    seen
}

impl Seen {
    fn name(&self) -> &'static str {
        match self.call {
            Command::PaintLit(_) => "paintlit",
            Command::ApplyLit(..) => "applylit",
            _ => "clear",
        }
    }

    fn shape(&self) -> Shape {
        match &self.call {
            Command::PaintLit(call) => call.shape,
            Command::ApplyLit(_, shape) | Command::Clear(shape) => *shape,
            other => panic!("{other:?}"),
        }
    }

    /// What happened to the counts of a call that nothing but 30 refused.
    fn ends(&self) -> BTreeSet<&'static str> {
        let shape = self.shape();
        let most = shape.strip_width * shape.rows;
        let given = counts_of_words(&self.before.counts).map(i64::from);
        if given.iter().any(|&count| count > most) {
            return BTreeSet::from(["over before"]);
        }
        let lit = true_counts(shape, &self.before.panel).map(i64::from);
        let lit_after = true_counts(shape, &self.uncounted).map(i64::from);
        let ends = (0..32).filter_map(|strip| {
            let change = lit_after[strip] - lit[strip];
            match given[strip] + change {
                _ if change == 0 => None,
                count if count < 0 => Some("under 0"),
                count if count > most => Some("over after"),
                0 => Some("down to 0"),
                count if count == most => Some("up to all"),
                _ => Some("between"),
            }
        });
        ends.collect()
    }
}

#[test]
fn a_list_has_as_many_calls_as_it_is_asked_for() {
    let seen = calls_seen();
    assert_eq!(seen.len(), CALLS);
    for call in seen {
        assert_eq!(call.after.counts.len(), 64);
        assert_eq!(call.after.sheets, call.before.sheets);
        if call.number != 0 {
            assert_eq!(call.after.panel, call.before.panel);
            let given = counts_of_words(&call.before.counts);
            assert_eq!(counts_of_words(&call.after.counts), given);
        }
    }
}

#[test]
fn each_call_brings_counts_to_the_ends_and_past_them() {
    let mut found = BTreeSet::new();
    for call in calls_seen() {
        if call.number == 0 || call.number == 30 {
            let ends = call.ends();
            let refused = ["over before", "under 0", "over after"];
            let is_refused = refused.iter().any(|end| ends.contains(end));
            assert_eq!(call.number == 30, is_refused, "{ends:?}");
            found.extend(ends.into_iter().map(|end| (call.name(), end)));
        }
    }
    let past = ["over before", "under 0", "over after"];
    let allowed = ["down to 0", "up to all", "between"];
    let mut expected = BTreeSet::new();
    for name in ["paintlit", "applylit", "clear"] {
        expected.extend(past.iter().chain(&allowed).map(|&end| (name, end)));
    }
    // Clearing makes no count greater.
    expected.remove(&("clear", "over after"));
    expected.remove(&("clear", "up to all"));
    assert_eq!(found, expected);
}

#[test]
fn true_counts_and_others_are_given() {
    let mut found = BTreeSet::new();
    for call in calls_seen().iter().filter(|call| call.number == 0) {
        let lit = true_counts(call.shape(), &call.before.panel);
        let given = counts_of_words(&call.before.counts);
        let untrue = (0..32).filter(|&strip| given[strip] != lit[strip]).count();
        found.insert((call.name(), untrue.min(2)));
        if call.before.counts.is_empty() {
            found.insert((call.name(), NO_WORDS));
        }
    }
    for name in ["paintlit", "applylit", "clear"] {
        for sort in [0, 1, NO_WORDS] {
            assert!(found.contains(&(name, sort)), "{name}: {sort}");
        }
    }
}

const NO_WORDS: usize = 33;

/// Accepted labels whose first characters alone would be refused 30.
#[test]
fn some_labels_pass_an_end_on_the_way() {
    let seen = calls_seen();
    let on_the_way = seen.iter().filter(|seen| match &seen.call {
        Command::PaintLit(call) if seen.number == 0 => {
            (0..call.label.len()).any(|length| seen.is_refused_for_first(call, length))
        }
        _ => false,
    });
    let number = on_the_way.count();
    assert!(number > 10, "{number}");
}

impl Seen {
    fn is_refused_for_first(&self, call: &Call, length: usize) -> bool {
        let mut first = call.clone();
        first.label.truncate(length);
        let mut panel = self.before.panel.clone();
        let mut counts = counts_of_words(&self.before.counts);
        paint(&self.font, &first, &mut panel, &mut counts) == Err(Refused(30))
    }
}

/// The slices that make a call's answer 8, or its shape.
fn faults(call: &Seen) -> Vec<&'static str> {
    let shape = call.shape();
    if shape.test(&[]).is_err() {
        return vec!["shape"];
    }
    let [keep1, flip1, keep2, flip2] = &call.before.sheets;
    let mut lent = vec![("panel", &call.before.panel)];
    match call.call {
        Command::ApplyLit(SheetName::One, _) => lent.extend([("keep1", keep1), ("flip1", flip1)]),
        Command::ApplyLit(SheetName::Two, _) => lent.extend([("keep2", keep2), ("flip2", flip2)]),
        _ => (),
    }
    let short = lent.iter().filter(|(_, slice)| slice.len() < shape.words());
    short.map(|(name, _)| *name).collect()
}

#[test]
fn every_slice_is_too_short_and_every_limit_of_a_shape_is_there() {
    let seen = calls_seen();
    let mut found = BTreeSet::new();
    for call in seen.iter().filter(|call| call.number == 8) {
        let faults = faults(call).into_iter();
        found.extend(faults.map(|fault| (call.name(), fault)));
    }
    let mut expected = BTreeSet::new();
    for name in ["paintlit", "applylit", "clear"] {
        expected.extend([(name, "shape"), (name, "panel")]);
    }
    for slice in ["keep1", "flip1", "keep2", "flip2"] {
        expected.insert(("applylit", slice));
    }
    assert_eq!(found, expected);
    for (words_per_row, rows, strip_width) in LIMITS {
        let limit = Shape {
            words_per_row,
            rows,
            strip_width,
        };
        let accepted = |call: &Seen| call.number == 0 && call.shape() == limit;
        assert!(seen.iter().any(accepted), "{limit:?}");
    }
}
