//! Words from the bytes that the desk hands.

use super::answers_to;
use crate::desk::words;
use crate::refusal::Refused;

/// What the call answers, and what is in the output after it.
fn words_over<const ROOM: usize>(bytes: &[u8]) -> (Result<usize, Refused>, [u16; ROOM]) {
    let mut output = [0xEEEE; ROOM];
    let outcome = words(bytes, &mut output);
    (outcome, output)
}

#[test]
fn the_high_byte_comes_first_and_the_rest_stays() {
    let bytes = [0x12, 0x34, 0xFF, 0x00];
    assert_eq!(words_over(&bytes), (Ok(2), [0x1234, 0xFF00]));
    assert_eq!(words_over(&bytes), (Ok(2), [0x1234, 0xFF00, 0xEEEE]));
}

#[test]
fn no_bytes_are_no_words() {
    assert_eq!(words_over(&[]), (Ok(0), []));
    assert_eq!(words_over(&[]), (Ok(0), [0xEEEE]));
}

#[test]
fn an_output_that_is_too_short_is_refused_and_stays() {
    assert_eq!(words_over(&[1, 2, 3, 4]), (Err(Refused(27)), [0xEEEE]));
    assert_eq!(words_over(&[1, 2]), (Err(Refused(27)), []));
}

#[test]
fn odd_bytes_are_refused_first() {
    assert_eq!(words_over(&[1, 2, 3]), (Err(Refused(14)), [0xEEEE; 2]));
    assert_eq!(words_over(&[1, 2, 3, 4, 5]), (Err(Refused(14)), [0xEEEE]));
    assert_eq!(words_over(&[1]), (Err(Refused(14)), []));
}

#[test]
fn a_list_says_how_many_and_shows_them() {
    let list = "file 12 34 FF 00\nout EEEE*3\nwords\nshow out\nout EEEE\nwords\nshow out\n\
                file 12\nwords\nshow out\n";
    let answers = "words 0 2\nout 1234 FF00 EEEE\nwords 27 0\nout EEEE\nwords 14 0\nout EEEE\n";
    assert_eq!(answers_to(list).unwrap(), answers);
}

#[test]
fn words_of_bytes_are_no_conversion() {
    let list = "file 12 34\nout 0000\nwords\nfont 8000\nwritten\nshow font\n";
    assert_eq!(answers_to(list).unwrap(), "words 0 1\nfont\n");
}
