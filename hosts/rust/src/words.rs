//! Words, of sets and of plans: their two parts, and the bytes of a file.

use crate::sys;
#[cfg(feature = "alloc")]
use {
    crate::{Refusal, Refused},
    alloc::vec::Vec,
};

pub(crate) fn kind_of(word: u32) -> u32 {
    word / sys::FIELDS
}

/// A field has 28 bits, so it fits.
pub(crate) fn field_of(word: u32) -> usize {
    (word % sys::FIELDS) as usize
}

/// The device that a CLAIM takes: bits 15 to 0. Of a RELEASE it is the whole field.
pub(crate) fn claimed_device(word: u32) -> usize {
    (word % sys::DEVICES) as usize
}

/// How many units a CLAIM takes: one, and as many extra ones as bits 23 to 16 say.
pub(crate) fn claimed_units(word: u32) -> usize {
    (word / sys::DEVICES % sys::EXTRA_UNITS) as usize + 1
}

/// The words in a set file: four bytes a word, lowest first. No bytes are no words. Whether the words are a set is for whoever reads them next to say.
///
/// # Errors
///
/// Over 16,384 bytes are [`Refusal::TooManyWords`], then a length that isn't a multiple of 4 is [`Refusal::BytesNotWords`].
#[cfg(feature = "alloc")]
pub fn words_of(bytes: &[u8]) -> Result<Vec<u32>, Refused> {
    if bytes.len() > 4 * sys::MAX_WORDS {
        return Err(Refused { refusal: Refusal::TooManyWords, place: sys::MAX_WORDS });
    }
    if bytes.len() % 4 != 0 {
        return Err(Refused { refusal: Refusal::BytesNotWords, place: bytes.len() / 4 });
    }
    Ok(bytes.chunks_exact(4).map(|word| u32::from_le_bytes([word[0], word[1], word[2], word[3]])).collect())
}
