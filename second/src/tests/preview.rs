//! The preview program, on the paper's small font and on what is generated.

use std::collections::BTreeSet;

use crate::bits::bytes_from_words;
use crate::generate::preview_inputs;
use crate::panel::Shape;
use crate::preview::{arguments, preview, Arguments, Written, HELP, USAGE};
use crate::refusal::MESSAGES;

const C1: [u16; 27] = [
    0x9000, 0x0041, 0x0044, 0x0004, 0xFFFF, 0xFFFF, 0x0004, 0x0003, 0x000E, 0x0002, 0x0001, 0x0000,
    0x0001, 0x4F00, 0xBF00, 0x1F00, 0x0000, 0x0003, 0x0004, 0x0004, 0x0004, 0x0008, 0x0104, 0x0000,
    0xFFFF, 0x0102, 0x0004,
];

const SHAPE: Shape = Shape {
    words_per_row: 8,
    rows: 3,
    strip_width: 4,
};

fn answer(lines: &[u8]) -> Written {
    preview(Some(&bytes_from_words(&C1)), SHAPE, lines)
}

/// The picture of a panel whose words 7, 15 and 23, the last of its three rows, are these, and
/// whose other words are 0.
fn last_words(words: [u16; 3]) -> Vec<u8> {
    let mut file = b"P4\n128 3\n".to_vec();
    for word in words {
        file.extend([0; 14]);
        file.extend(word.to_be_bytes());
    }
    file
}

#[test]
fn the_papers_case_2() {
    let written = answer(b"31 1 2 0 BA\n");
    assert_eq!(written.picture, last_words([0x0002, 0x000D, 0x0008]));
    assert_eq!(written.errors, "");
}

#[test]
fn a_last_line_needs_no_newline() {
    assert_eq!(answer(b"31 1 2 0 BA"), answer(b"31 1 2 0 BA\n"));
}

#[test]
fn modes_act_in_the_order_of_the_lines() {
    let written = answer(b"31 1 2 0 C\n31 1 2 1 C\n31 1 2 2 BA");
    assert_eq!(written.picture, last_words([0x0002, 0x000D, 0x0008]));
}

#[test]
fn lines_are_counted_and_passed_over() {
    let written = answer(b"# a comment\n\n32 0 0 0 A\n0 1024 0 0 A\n0 0 -1025 0\n0 0 0 3 A\nA");
    assert_eq!(
        written.errors,
        "line 3: refused 9: strip over 31\n\
         line 4: refused 10: x or y not -1024 to 1023\n\
         line 5: refused 10: x or y not -1024 to 1023\n\
         line 6: refused 12: mode over 2\n\
         line 7: not a label\n"
    );
    assert_eq!(written.picture, last_words([0; 3]));
}

#[test]
fn what_is_a_label() {
    for good in [
        "0 0 0 0",
        "0 0 0 0 ",
        "00 -0 -00 000000000000 A",
        "0 -1 1 2 AB",
        "0 0 0 0\r",
        "\r",
        "#\r",
    ] {
        assert_eq!(answer(good.as_bytes()).errors, "", "{good:?}");
    }
    for with_a_code_outside in ["0 0 0 0  ", "0 -1 1 2 A B", "0 0 0 0 #\r"] {
        let expected = "line 1: codes shown as the dummy: 1\n";
        assert_eq!(answer(with_a_code_outside.as_bytes()).errors, expected);
    }
    for bad in [
        "0",
        "0 0 0",
        "0 0 0 ",
        " 0 0 0 0",
        "0  0 0 0",
        "-0 0 0 0",
        "0 0 0 -1",
        "+0 0 0 0",
        "0 0 - 0",
        "0 --1 0 0",
        "0 0 0 0\tA",
        "0 0 0 0\r\r",
        "\r\r",
        "4294967296 0 0 0",
        "0 2147483648 0 0",
        "0 0 -2147483649 0",
    ] {
        let written = answer(bad.as_bytes());
        assert_eq!(written.errors, "line 1: not a label\n", "{bad:?}");
    }
    for (refused, number) in [
        ("4294967295 0 0 0", "9: strip over 31"),
        ("0 2147483647 0 0", "10: x or y not -1024 to 1023"),
        ("0 0 -2147483648 0", "10: x or y not -1024 to 1023"),
        ("0 0 0 4294967295", "12: mode over 2"),
    ] {
        let expected = format!("line 1: refused {number}\n");
        assert_eq!(answer(refused.as_bytes()).errors, expected);
    }
}

#[test]
fn codes_that_the_font_does_not_have_are_counted() {
    let written = answer(b"31 1 2 0 C\n31 9 2 0 CA@\r\n31 1 2 1 CCD");
    assert_eq!(
        written.errors,
        "line 1: codes shown as the dummy: 1\n\
         line 2: codes shown as the dummy: 2\n\
         line 3: codes shown as the dummy: 2\n"
    );
    let refused = answer(b"32 1 2 0 CC");
    assert_eq!(refused.errors, "line 1: refused 9: strip over 31\n");
}

#[test]
fn one_carriage_return_ends_a_line() {
    let plain = answer(b"# A\n\n31 1 2 0 BA\n32 0 0 0 A\nA");
    let returns = answer(b"# A\r\n\r\n31 1 2 0 BA\r\n32 0 0 0 A\r\nA\r");
    assert_eq!(returns, plain);
    let second_return = answer(b"31 1 2 0 BA\r\r");
    assert_eq!(
        second_return.errors,
        "line 1: codes shown as the dummy: 1\n"
    );
    assert_eq!(
        answer(b"31 1 2 0 \rBA").errors,
        "line 1: codes shown as the dummy: 1\n"
    );
}

#[test]
fn long_lines() {
    let line = |length: usize| [b"0 0 0 0 ".to_vec(), vec![b'A'; length - 8]].concat();
    assert_eq!(answer(&line(72)).errors, "");
    let too_long = "line 1: refused 11: label over 64 bytes\n";
    assert_eq!(answer(&line(73)).errors, too_long);
    assert_eq!(answer(&line(1_000)).errors, too_long);
    assert_eq!(answer(&line(1_001)).errors, "line 1: not a label\n");
    assert_eq!(answer(&[b'#'; 70_000]).errors, "");
    let ended = |length, end: &[u8]| answer(&[line(length), end.to_vec()].concat()).errors;
    assert_eq!(ended(1_000, b"\r"), too_long);
    for (length, end) in [(1_000, b"\r\r"), (1_000, b"\rA"), (1_001, b"\r\n")] {
        assert_eq!(ended(length, end), "line 1: not a label\n");
    }
}

#[test]
fn fonts_and_shapes_come_before_the_lines() {
    let bad_shape = Shape {
        strip_width: 5,
        ..SHAPE
    };
    let font = bytes_from_words(&C1);
    let errors = |font: Option<&[u8]>, shape| {
        let written = preview(font, shape, b"A");
        assert_eq!(written.picture, []);
        written.errors
    };
    assert_eq!(
        errors(Some(&font), bad_shape),
        "panel: refused 8: panel size out of range, or its memory too short\n"
    );
    assert_eq!(
        errors(Some(&font[..52]), bad_shape),
        "font: refused 5: font's length is not what its header says\n"
    );
    assert_eq!(
        errors(Some(&font[..53]), bad_shape),
        "font: refused 14: odd number of bytes\n"
    );
    assert_eq!(
        errors(Some(&[]), SHAPE),
        "font: refused 1: font file too short for its header\n"
    );
    assert_eq!(errors(Some(&[0; 65_537]), SHAPE), "font: too long\n");
    assert_eq!(
        errors(Some(&[0; 65_536]), SHAPE),
        "font: refused 2: not a plain or kerned strike file\n"
    );
    assert_eq!(errors(None, SHAPE), "font: cannot be read\n");
}

#[test]
fn what_the_arguments_are() {
    let meant = |counts, font| {
        Some(Arguments {
            counts,
            font,
            shape: SHAPE,
        })
    };
    assert_eq!(arguments(&["f", "8", "3", "4"]), meant(false, "f"));
    assert_eq!(
        arguments(&["--counts", "f", "8", "3", "4"]),
        meant(true, "f")
    );
    for name in ["--help", "--counts"] {
        assert_eq!(arguments(&[name, "8", "3", "4"]), meant(false, name));
        let with_counts = ["--counts", name, "8", "3", "4"];
        assert_eq!(arguments(&with_counts), meant(true, name));
    }
    for bad in [
        &["f", "8", "3"] as &[&str],
        &["f", "8", "3", "4", "5"],
        &["f", "8", "-3", "4"],
        &["f", "8", "", "4"],
        &["f", "4294967296", "3", "4"],
        &["--help", "--help"],
        &[],
        &["--counts"],
        &["--counts", "--help"],
        &["--counts", "f", "8", "3"],
        &["--counts", "f", "8", "3", ""],
        &["--counts", "f", "8", "3", "4", "5"],
        &["--counts", "--counts", "f", "8", "3", "4"],
        &["--count", "f", "8", "3", "4"],
        &["f", "--counts", "8", "3", "4"],
        &["f", "8", "3", "4", "--counts"],
    ] {
        assert_eq!(arguments(bad), None, "{bad:?}");
    }
}

/// The lines of a panel whose strips have no lit dot but for these.
fn lit(strips: &[(usize, u32)]) -> String {
    let count = |strip| {
        let found = strips.iter().find(|given| given.0 == strip);
        found.map_or(0, |given| given.1)
    };
    (0..32)
        .map(|strip| format!("strip {strip}: {} lit\n", count(strip)))
        .collect()
}

#[test]
fn the_lit_dots_of_each_strip_are_told() {
    assert_eq!(answer(b"").counts_text(), lit(&[]));
    assert_eq!(answer(b"31 1 2 0 BA\n").counts_text(), lit(&[(31, 5)]));
    let lines = b"31 1 2 0 BA\n31 1 2 0 C\n0 1 2 0 C\n0 1 2 1 B\n1 1 2 2 BB\n32 1 2 0 C\n2";
    assert_eq!(answer(lines).counts_text(), lit(&[(31, 12), (0, 10)]));
}

#[test]
fn without_a_picture_no_dots_are_told() {
    let written = preview(None, SHAPE, b"31 1 2 0 BA\n");
    assert_eq!(
        (written.counts, written.counts_text()),
        (None, String::new())
    );
}

/// The lit dots of a strip, of the bytes of a picture.
fn lit_in_picture(picture: &[u8], shape: Shape, strip: usize) -> usize {
    let row_bytes = 2 * shape.words_per_row as usize;
    let rows = &picture[picture.len() - row_bytes * shape.rows as usize..];
    let width = shape.strip_width as usize;
    rows.chunks(row_bytes)
        .map(|row| {
            let text: String = row.iter().map(|byte| format!("{byte:08b}")).collect();
            text[strip * width..(strip + 1) * width]
                .matches('1')
                .count()
        })
        .sum()
}

#[test]
fn what_is_told_are_the_dots_of_the_picture() {
    let fonts = [bytes_from_words(&C1)];
    let (mut with_flag, mut told) = (BTreeSet::new(), 0);
    for input in preview_inputs(1980, 240, &fonts) {
        let written = preview(input.font.as_deref(), input.shape, &input.lines);
        with_flag.insert((input.counts, written.picture.is_empty()));
        assert_eq!(written.counts.is_none(), written.picture.is_empty());
        for (strip, &count) in written.counts.iter().flatten().enumerate() {
            let lit = lit_in_picture(&written.picture, input.shape, strip);
            assert_eq!(count as usize, lit);
            told += usize::from(input.counts && count > 0);
        }
    }
    assert_eq!(with_flag.len(), 4);
    assert!(told > 200, "{told}");
}

#[test]
fn the_help_begins_as_the_usage_and_has_short_lines() {
    let usage = USAGE.trim_end();
    assert!(HELP.starts_with(&format!("{usage} < LINES > PICTURE\n\n")));
    assert!(HELP.ends_with(
        "painted all the same.\n\
         With --counts the lit dots of each strip are told on standard error, one line a strip.\n"
    ));
    assert_eq!(HELP.lines().count(), 15);
    assert!(HELP.lines().all(|line| line.len() <= 140));
}

#[test]
fn every_reply_appears_and_no_other() {
    let fonts = [bytes_from_words(&C1)];
    let mut replies = BTreeSet::new();
    for input in preview_inputs(1980, 200, &fonts) {
        let errors = preview(input.font.as_deref(), input.shape, &input.lines).errors;
        if errors.is_empty() {
            replies.insert("done".to_string());
        }
        for line in errors.lines() {
            let (place, reply) = line.split_once(": ").expect("a place and a reply");
            let place = place.split(' ').next().expect("a word");
            let reply = without_count(reply);
            replies.insert(format!("{place} {reply}"));
        }
    }
    let refused = |place: &str, numbers: &[u32]| -> Vec<String> {
        let rows = MESSAGES.iter().filter(|row| numbers.contains(&row.0));
        rows.map(|(number, message)| format!("{place} refused {number}: {message}"))
            .collect()
    };
    let others = [
        "done",
        "font cannot be read",
        "font too long",
        "line not a label",
        "line codes shown as the dummy: 1",
        "line codes shown as the dummy: more",
    ];
    let expected = [
        refused("font", &[1, 2, 3, 4, 5, 6, 7, 14, 15, 16]),
        refused("panel", &[8]),
        refused("line", &[9, 10, 11, 12]),
        others.map(str::to_string).to_vec(),
    ];
    assert_eq!(replies, expected.concat().into_iter().collect());
}

fn without_count(reply: &str) -> String {
    match reply.strip_prefix("codes shown as the dummy: ") {
        Some("1") | None => reply.to_string(),
        Some(_) => "codes shown as the dummy: more".to_string(),
    }
}

/// Of the lines of the gate's inputs: for each length near the limit, with a carriage return as
/// byte 1,001 or without, and one at the end or without, there is a line.
#[test]
fn the_lines_reach_the_limit_with_returns_and_without() {
    let mut found = BTreeSet::new();
    let mut double = 0;
    for input in preview_inputs(1980, 240, &[bytes_from_words(&C1)]) {
        for line in input.lines.split(|&byte| byte == b'\n') {
            if (999..=1_003).contains(&line.len()) {
                let at_limit = line.get(1_000) == Some(&b'\r');
                found.insert((line.len(), at_limit, line.ends_with(b"\r")));
            }
            double += usize::from(line.ends_with(b"\r\r"));
        }
    }
    let expected = (999..=1_003).flat_map(|length| match length {
        999 | 1_000 => vec![(length, false, false), (length, false, true)],
        1_001 => vec![(length, false, false), (length, true, true)],
        _ => [(false, false), (false, true), (true, false), (true, true)]
            .map(|(at_limit, at_end)| (length, at_limit, at_end))
            .to_vec(),
    });
    assert_eq!(found, expected.collect());
    assert!(double > 100, "{double}");
}
