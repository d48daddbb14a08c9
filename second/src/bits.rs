//! Words and their bits. Bit 0 is the most significant bit of the first word.

pub fn bit(words: &[u16], place: usize) -> bool {
    words[place / 16] & mask(place) != 0
}

pub fn set_bit(words: &mut [u16], place: usize, value: bool) {
    if value {
        words[place / 16] |= mask(place);
    } else {
        words[place / 16] &= !mask(place);
    }
}

fn mask(place: usize) -> u16 {
    0x8000 >> (place % 16)
}

/// The high byte comes first. An odd number of bytes makes no words.
pub fn words_from_bytes(bytes: &[u8]) -> Option<Vec<u16>> {
    if bytes.len() % 2 != 0 {
        return None;
    }
    let pairs = bytes.chunks(2);
    Some(
        pairs
            .map(|pair| u16::from(pair[0]) * 256 + u16::from(pair[1]))
            .collect(),
    )
}

pub fn bytes_from_words(words: &[u16]) -> Vec<u8> {
    words.iter().flat_map(|word| word.to_be_bytes()).collect()
}

/// A word read as two's complement.
pub fn signed(word: u16) -> i64 {
    if word >= 0x8000 {
        i64::from(word) - 0x1_0000
    } else {
        i64::from(word)
    }
}

/// The word that reads as this number in two's complement.
pub fn two_complement_word(number: i64) -> u16 {
    number.rem_euclid(0x1_0000) as u16
}
