//! Frame lines through the wrapper: the text of a fit, of a refusal, and what stays of the buffer.

use core::f32::consts::FRAC_PI_2;
use jengubool::{answer_line, Number, Refusal, RefusedLine, ANSWER_BYTES};

const REST: u8 = b'.';

/// A ring line of zeros, with one word in the place of another.
fn ring_line(place: usize, word: &str) -> Vec<u8> {
    line_of(b"01", 32, place, word)
}

/// The same with 24 samples and 24 angles.
fn ring24_line(place: usize, word: &str) -> Vec<u8> {
    line_of(b"03", 48, place, word)
}

fn line_of(kind: &[u8], words: usize, place: usize, word: &str) -> Vec<u8> {
    let mut line = [kind, &vec![b'0'; 8 * words]].concat();
    line[2 + 8 * place..10 + 8 * place].copy_from_slice(word.as_bytes());
    line
}

/// A disk line: energy and first guess, then the five runs.
fn disk_line(head: [f32; 3], runs: [[f32; 8]; 5]) -> Vec<u8> {
    let words = head.into_iter().chain(runs.into_iter().flatten());
    let words: String = words.map(|x| format!("{:08x}", x.to_bits())).collect();
    format!("020008{words}").into_bytes()
}

fn refused(number: Number, place: u16, text: &[u8]) -> Result<&[u8], RefusedLine<'_>> {
    Err(RefusedLine { refusal: Refusal { number, place }, text })
}

#[test]
fn a_ring_line_is_answered() {
    let mut out = [REST; 120];
    let text = answer_line(&ring_line(0, "00000000"), &mut out).unwrap();
    assert_eq!(text, b"810000000000000000003fc90fdb40490fdb40490fdb0000000001000000");
    assert_eq!(out[60..], [REST; 60]);
}

#[test]
fn a_ring24_line_is_answered_and_refused() {
    let mut out = [REST; 120];
    let text = answer_line(&ring24_line(0, "00000000"), &mut out).unwrap();
    assert_eq!(text, b"830000000000000000003fc90fdb40490fdb40490fdb0000000001000000");
    assert_eq!(out[60..], [REST; 60]);
    assert_eq!(answer_line(&ring24_line(23, "7fc00000"), &mut out), refused(Number::NotFinite, 23, b"83030017"));
    assert_eq!(answer_line(&ring24_line(47, "7f800000"), &mut out), refused(Number::NotFinite, 47, b"8303002f"));
    let short = &ring24_line(0, "00000000")[..258];
    assert_eq!(answer_line(short, &mut out), refused(Number::Malformed, 0, b"ff050000"));
}

/// The eight neighbours of an upright corner, 40 bright and dark. So few pixels know their axes well, their width not.
#[test]
fn a_disk_line_is_answered() {
    let xs = [-1.0, 0.0, 1.0, -1.0, 1.0, -1.0, 0.0, 1.0];
    let ys = [-1.0, -1.0, -1.0, 0.0, 0.0, 1.0, 1.0, 1.0];
    let vals = [40.0, 0.0, -40.0, 0.0, 0.0, -40.0, 0.0, 40.0];
    let grad_angles = [0.0, FRAC_PI_2, 0.0, 0.0, 0.0, 0.0, FRAC_PI_2, 0.0];
    let grad_weights = [0.0, 80.0, 0.0, 80.0, 80.0, 0.0, 80.0, 0.0];
    let line = disk_line([6400.0, 0.1, 1.5], [xs, ys, vals, grad_angles, grad_weights]);
    let mut out = [REST; 120];
    let text = answer_line(&line, &mut out).unwrap();
    let want = "82003fc880e0404957584033333343aa4cc93d8f1bbd39571ff23f7fffcd3f7f801ebf9fa95a3b2291a93b2291aa009001";
    assert_eq!(core::str::from_utf8(text), Ok(want));
    assert_eq!(out[ANSWER_BYTES..], [REST; 120 - ANSWER_BYTES]);
}

/// One pixel of 0 is refused after 96 trials, 321 pixels at once.
#[test]
fn disk_lines_are_refused() {
    let mut out = [REST; ANSWER_BYTES];
    let flat = [b"02000100000000000000003fc90fdb".as_slice(), &[b'0'; 40]].concat();
    assert_eq!(answer_line(&flat, &mut out), refused(Number::NothingFound, 96, b"82040060"));
    let large = [b"020141".as_slice(), &[b'0'; 24]].concat();
    assert_eq!(answer_line(&large, &mut out), refused(Number::PixelCount, 0, b"82020000"));
    assert_eq!(out[8..], [REST; ANSWER_BYTES - 8]);
}

#[test]
fn refused_lines_carry_number_place_and_text() {
    let mut out = [REST; ANSWER_BYTES];
    assert_eq!(answer_line(&ring_line(0, "7fc00000"), &mut out), refused(Number::NotFinite, 0, b"81030000"));
    assert_eq!(answer_line(&ring_line(27, "ff800000"), &mut out), refused(Number::NotFinite, 27, b"8103001b"));
    assert_eq!(answer_line(b"", &mut out), refused(Number::Malformed, 0, b"ff050000"));
    assert_eq!(answer_line(&ring_line(3, "0000000G"), &mut out), refused(Number::Malformed, 0, b"ff050000"));
    assert_eq!(out[8..], [REST; ANSWER_BYTES - 8]);
}

#[test]
fn a_short_buffer_is_refused_and_kept() {
    let mut out = [REST; ANSWER_BYTES - 1];
    for line in [ring_line(0, "00000000"), Vec::new()] {
        assert_eq!(answer_line(&line, &mut out), refused(Number::Length, 0, b""));
        assert_eq!(out, [REST; ANSWER_BYTES - 1]);
    }
    assert_eq!(answer_line(b"", &mut []), refused(Number::Length, 0, b""));
}

#[test]
fn a_refused_line_speaks_as_its_refusal() {
    let mut out = [REST; ANSWER_BYTES];
    let line = answer_line(b"01", &mut out).unwrap_err();
    assert_eq!(line.to_string(), "refused: the line is malformed (number 5, place 0)");
    assert_eq!(Refusal::from(line), Refusal { number: Number::Malformed, place: 0 });
}
