//! The rules of the list and the spelling of answers.

use super::answers_to;
use crate::replay::Stopped;

fn malformed_line(list: &str) -> Option<usize> {
    match answers_to(list) {
        Err(Stopped::Malformed { line, .. }) => Some(line),
        _ => None,
    }
}

#[test]
fn passed_over_lines() {
    assert_eq!(answers_to("\n# a note\n\ncheck\n").unwrap(), "check 1\n");
}

#[test]
fn runs_are_joined_and_spelled_once() {
    let list = "panel 0001 0001*2 0002 0001*0 0002\nshow panel\nfile 0A*2 0A\nshow file\n";
    assert_eq!(
        answers_to(list).unwrap(),
        "panel 0001*3 0002*2\nfile 0A*3\n"
    );
}

#[test]
fn an_answer_without_words_ends_behind_its_name() {
    let list = "show out\nrow 0 0\nprogram\n";
    assert_eq!(answers_to(list).unwrap(), "out\nrow\nprogram 20\n");
}

#[test]
fn a_call_with_counts_leaves_all_their_words() {
    let list = "show counts\ncounts 0000 0001 0002\nclear 2 1 1\nshow counts\n\
                panel 0000*2\ncounts\nclear 2 1 1\nshow counts\n";
    assert_eq!(
        answers_to(list).unwrap(),
        "counts\nclear 8\ncounts 0000 0001 0002 0000*61\nclear 0\ncounts 0000*64\n"
    );
}

#[test]
fn the_written_words_outlive_the_output() {
    let list = "cu 0001 0001 0041 0003 8000\nout 0000*19\nconvert\nout\nwritten\nshow font\n\
                convert\nwritten\nshow font\n";
    let answers = answers_to(list).unwrap();
    let font = "font B000 0041*2 0003 0000*2 0001*2 0009 0001 0000*2 0001 C000 0000 0001 0002 \
                0003*2";
    assert_eq!(
        answers,
        format!("convert 0 19\n{font}\nconvert 27 0\nfont\n")
    );
}

#[test]
fn lists_that_break_the_rules() {
    let broken = [
        "paint 8 3\n",
        "chek\n",
        " check\n",
        "check \n",
        "check 1\n",
        "glyph -1\n",
        "row 0\n",
        "row 0 -1\n",
        "row 0 0 0\n",
        "row 4294967296 0\n",
        "glyph 4294967296\n",
        "glyph +1\n",
        "glyph  1\n",
        "measure 2147483648\n",
        "measure -2147483649\n",
        "measure -0\n",
        "font 00ff\n",
        "font FFF\n",
        "font FFFF*\n",
        "font 0000*70001\n",
        "font \n",
        "file 0000\n",
        "fresh 3 1 1 1\n",
        "show sheet\n",
        "paintlit 8 3\n",
        "applylit 3 1 1 1\n",
        "clear 1 1\n",
        "clear 1 1 1 1\n",
        "counts 0000*65\n",
        "counts 0\n",
        "check\r\n",
        "font \u{e9}\n",
        "check",
    ];
    for list in broken {
        assert_eq!(malformed_line(list), Some(1), "{list:?}");
        let later = format!("check\n\n{list}");
        assert_eq!(malformed_line(&later), Some(3), "{later:?}");
    }
}

#[test]
fn the_greatest_numbers_are_answered() {
    let list = "font 8000 0000 0000 0001 0009 0001 0000 0000 0001 8000 0000 0001 0002\n\
                glyph 4294967295\n\
                dots 4294967295 4294967295 4294967295\n\
                row 4294967295 0\n\
                row 0 4294967295\n\
                measure -2147483648\n\
                paint 4294967295 4294967295 4294967295 4294967295 2147483647 -2147483648 4294967295\n\
                fresh 1 4294967295 4294967295 4294967295\n\
                join 4294967295 4294967295 4294967295\n\
                apply 2 4294967295 4294967295 4294967295\n\
                paintlit 4294967295 4294967295 4294967295 4294967295 2147483647 -2147483648 4294967295\n\
                applylit 2 4294967295 4294967295 4294967295\n\
                clear 4294967295 4294967295 4294967295\n";
    let answers = "glyph 0 1 0 1 1 1 1\ndots 0 0000\nrow\nrow\nmeasure 10 0 0\npaint 8 0 0\n\
                   fresh 8\njoin 8\napply 8\npaintlit 8 0 0\napplylit 8\nclear 8\n";
    assert_eq!(answers_to(list).unwrap(), answers);
}
