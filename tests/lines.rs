//! Answers function lines 10, 11, 12, 15, 16 and 17 with Rust's own f32 functions, one answer a line: the other side of
//! tests/lines.py. Two choices that Rust leaves open are made here as the project makes them: every NaN is 7fc00000, and
//! `max` and `min` take +0 as greater than -0.

use std::cmp::Ordering;
use std::f32::consts::PI;
use std::io::{Read, Write};

const ONE_NAN: u32 = 0x7fc0_0000;

fn one_nan(b: u32) -> u32 {
    if f32::from_bits(b).is_nan() { ONE_NAN } else { b }
}

fn is_positive_zero(x: f32) -> bool {
    x.to_bits() == 0
}

fn max(a: f32, b: f32) -> f32 {
    if a == 0.0 && b == 0.0 {
        return if is_positive_zero(a) || is_positive_zero(b) { 0.0 } else { -0.0 };
    }
    a.max(b)
}

fn min(a: f32, b: f32) -> f32 {
    if a == 0.0 && b == 0.0 {
        return if is_positive_zero(a) && is_positive_zero(b) { 0.0 } else { -0.0 };
    }
    a.min(b)
}

fn order(a: f32, b: f32) -> u32 {
    match a.total_cmp(&b) {
        Ordering::Less => 0,
        Ordering::Equal => 1,
        Ordering::Greater => 2,
    }
}

/// As the histogram of candidates.rs has it: floor, saturating cast, modulo.
fn bin(angle: f32) -> u32 {
    (((angle / PI) * 72.0).floor() as usize % 72) as u32
}

fn words(text: &str) -> Vec<f32> {
    text.as_bytes()
        .chunks(8)
        .map(|w| u32::from_str_radix(std::str::from_utf8(w).unwrap(), 16).unwrap())
        .map(|b| f32::from_bits(one_nan(b)))
        .collect()
}

fn answer(line: &str) -> u32 {
    let w = words(&line[2..]);
    match (&line[..2], &w[..]) {
        ("10", &[x, divisor]) => one_nan(x.rem_euclid(divisor).to_bits()),
        ("11", &[a, b]) => one_nan(max(a, b).to_bits()),
        ("12", &[a, b]) => one_nan(min(a, b).to_bits()),
        ("15", &[a, b]) => order(a, b),
        ("16", &[x]) => one_nan(x.to_radians().to_bits()),
        ("17", &[angle]) => bin(angle),
        _ => panic!("no such line here: {line}"),
    }
}

fn main() -> std::io::Result<()> {
    let mut text = String::new();
    std::io::stdin().read_to_string(&mut text)?;
    let mut out = std::io::BufWriter::new(std::io::stdout().lock());
    for line in text.lines() {
        writeln!(out, "{:08x}", answer(line))?;
    }
    out.flush()
}
