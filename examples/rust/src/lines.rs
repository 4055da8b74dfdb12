//! Frame lines: text in, text out.

use crate::{raw, Number, Refusal};
use core::fmt;

/// Bytes that the answer buffer of [`answer_line`] must have at least, whatever the line.
pub const ANSWER_BYTES: usize = 98;

const RING_ANSWER: usize = 60;
const DISK_ANSWER: usize = 98;
const REFUSED_ANSWER: usize = 8;

/// A refused line: its refusal, and the answer to send back.
#[derive(Clone, Copy, Debug, PartialEq, Eq)]
pub struct RefusedLine<'a> {
    /// Why, and where.
    pub refusal: Refusal,
    /// The eight characters of the answer. Empty if the buffer was under [`ANSWER_BYTES`]: then nothing was written.
    pub text: &'a [u8],
}

impl From<RefusedLine<'_>> for Refusal {
    fn from(line: RefusedLine<'_>) -> Self {
        line.refusal
    }
}

impl fmt::Display for RefusedLine<'_> {
    fn fmt(&self, f: &mut fmt::Formatter<'_>) -> fmt::Result {
        self.refusal.fmt(f)
    }
}

impl core::error::Error for RefusedLine<'_> {}

/// Answers one frame line, given without its line feed: the text of the fit, at the front of `out`. That is 60 characters
/// for a ring and 98 for a disk, lower-case hexadecimal, with a NaN as `7fc00000`. Bytes of `out` behind the answer keep
/// their value.
///
/// # Errors
///
/// [`Number::Length`] if `out` is under [`ANSWER_BYTES`]; nothing is written then. Else whatever the line is refused for,
/// with its eight characters written to `out`: [`Number::Malformed`], or a number of [`fit_ring`](crate::fit_ring),
/// [`fit_ring24`](crate::fit_ring24) or [`fit_disk`](crate::fit_disk).
pub fn answer_line<'a>(line: &[u8], out: &'a mut [u8]) -> Result<&'a [u8], RefusedLine<'a>> {
    let short = out.len() < ANSWER_BYTES;
    let code = raw::answer_line(line, out);
    let out: &'a [u8] = out;
    if short {
        return Err(RefusedLine { refusal: Refusal { number: Number::Length, place: 0 }, text: &[] });
    }
    if code == 0 {
        let length = if out[..2] == *b"82" { DISK_ANSWER } else { RING_ANSWER };
        return Ok(&out[..length]);
    }
    let text = &out[..REFUSED_ANSWER];
    Err(RefusedLine { refusal: Refusal { number: Number::from_code(code as u16), place: place_of(text) }, text })
}

/// The place of a refusal: the last four of its eight characters.
fn place_of(text: &[u8]) -> u16 {
    text[4..].iter().fold(0, |place, &digit| place << 4 | u16::from(value_of(digit)))
}

fn value_of(digit: u8) -> u8 {
    match digit {
        b'a'..=b'f' => digit - b'a' + 10,
        _ => digit & 15,
    }
}
