//! PlainStrike and KernedStrike: one body, whose codes are those of the font.

use super::body::{Body, BodyHead};
use super::{Font, Header};
use crate::refusal::{refuse_if, Refused};

/// The tests 4, 5 and 6.
pub fn read(words: &[u16], header: Header) -> Result<Font<'_>, Refused> {
    let start = if header.kerned { 8 } else { 4 };
    let head = BodyHead::of(&words[start..]);
    let sizes_are_allowed = head.sizes_are_allowed() && header.fbbox_is_allowed();
    refuse_if(!sizes_are_allowed, 4)?;
    let lengths_agree = head.length == body_length(&header, &head)
        && words.len() as i64 == file_length(&header, &head);
    refuse_if(!lengths_agree, 5)?;
    let (body_words, entries) = words[start..].split_at(head.length as usize);
    let body = Body::of(&head, body_words);
    refuse_if(!body.pointers_are_allowed(), 6)?;
    Ok(Font {
        header,
        map: None,
        bodies: vec![body],
        entries,
    })
}

fn body_length(header: &Header, head: &BodyHead) -> i64 {
    head.bitmap_words() + header.codes() + 7
}

fn file_length(header: &Header, head: &BodyHead) -> i64 {
    if header.kerned {
        head.bitmap_words() + 2 * header.codes() + 16
    } else {
        head.bitmap_words() + header.codes() + 11
    }
}
