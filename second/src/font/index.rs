//! PlainStrikeIndex and KernedStrikeIndex: a map from the codes to several bodies, whose own codes
//! start at 0.

use super::body::{Body, BodyHead, BODY_HEAD};
use super::{Font, Header};
use crate::refusal::{refuse_if, Refused};

/// The tests from 15 to 16.
pub fn read(words: &[u16], header: Header) -> Result<Font<'_>, Refused> {
    let map_start = if header.kerned { 11 } else { 7 };
    let body_count = i64::from(words[map_start - 1]);
    refuse_if(!(1..=128).contains(&body_count), 15)?;
    let bodies_start = map_start + (header.codes() + 1) as usize;
    refuse_if(words.len() < bodies_start, 1)?;
    refuse_if(!header.fbbox_is_allowed(), 4)?;
    let behind_the_last = header.entries();
    let (bodies, entries) = read_bodies(&words[bodies_start..], body_count, behind_the_last)?;
    let font = Font {
        header,
        map: Some(&words[map_start..bodies_start]),
        bodies,
        entries,
    };
    refuse_if(!font.pictures_are_there(), 16)?;
    Ok(font)
}

/// The bodies, one behind the other, and the words behind the last.
fn read_bodies(
    words: &[u16],
    count: i64,
    behind_the_last: i64,
) -> Result<(Vec<Body<'_>>, &[u16]), Refused> {
    let mut bodies = Vec::new();
    let mut rest = words;
    for number in 1..=count {
        let wanted_behind = (number == count).then_some(behind_the_last);
        let (body, behind) = read_body(rest, wanted_behind)?;
        bodies.push(body);
        rest = behind;
    }
    Ok((bodies, rest))
}

/// The tests 4, 5 and 6 of the body that the words begin with. Behind the last body a number of
/// words is wanted, behind the others none in particular.
fn read_body(words: &[u16], wanted_behind: Option<i64>) -> Result<(Body<'_>, &[u16]), Refused> {
    refuse_if(words.len() < BODY_HEAD, 5)?;
    let head = BodyHead::of(words);
    refuse_if(!head.sizes_are_allowed(), 4)?;
    refuse_if(head.pointers_left() < 2, 5)?;
    let left_behind = words.len() as i64 - head.length;
    refuse_if(left_behind < 0, 5)?;
    refuse_if(left_behind != wanted_behind.unwrap_or(left_behind), 5)?;
    let (body_words, behind) = words.split_at(head.length as usize);
    let body = Body::of(&head, body_words);
    refuse_if(!body.pointers_are_allowed(), 6)?;
    Ok((body, behind))
}

/// Seven bits for the body and eight for its code, behind the bit that marks an absent code.
pub fn place_in_map_entry(entry: u16) -> (usize, usize) {
    let body = entry / 256 % 128;
    let code = entry % 256;
    (usize::from(body), usize::from(code))
}

impl Font<'_> {
    /// The present codes, the dummy among them, name bodies and columns that there are. Where the
    /// map or the width entry says that a code is absent, the rest of its map entry says nothing.
    fn pictures_are_there(&self) -> bool {
        (self.header.min..=self.header.dummy())
            .filter(|&code| !self.is_marked_absent(code))
            .all(|code| {
                let (body, code_in_body) = self.place_of_picture(code);
                match self.bodies.get(body) {
                    Some(body) => body.has_columns_of(code_in_body),
                    None => false,
                }
            })
    }
}
