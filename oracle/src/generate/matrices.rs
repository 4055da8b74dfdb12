//! Function lines 40 and 41 on matrices that are hard to eliminate: whichever way a pivot, an exchange, a skipped factor
//! or a failure can go, some of them go it, and numbers that are none stand in every place.

use super::frames::line as text_line;
use super::random::Random;
use super::values::{drawn, limit, middling_bits, nudged, word, Taste};
use shapes::PIXELS;

const MINUS: u32 = 0x8000_0000;
/// The least size of a pivot, the `f32` 1e-20.
const LEAST: u32 = 0x1e3c_e508;
const INFINITY: u32 = 0x7f80_0000;
const NAN: u32 = 0x7fc0_0000;

type Matrix = [[u32; 4]; 4];

pub fn line(random: &mut Random, number: u8) -> Vec<u8> {
    let mut matrix = base(random);
    for _ in 0..random.between(0, 3) {
        spoil(random, &mut matrix);
    }
    let mut words: Vec<u32> = matrix.iter().flatten().copied().collect();
    if number == 40 {
        words.extend((0..4).map(|_| right(random)));
    } else {
        words.push(if random.percent(80) { word(random.range(0.0, 1e4)) } else { drawn(random, Taste::Mixed, -1.0, 1e4) });
        words.push(if random.percent(5) { random.between(0, 6) } else { random.between(5, PIXELS) } as u32);
    }
    text_line(&[b'0' + number / 10, b'0' + number % 10], &words)
}

/// An entry of a right side: a small whole number, a limit of either sign, or any word.
fn right(random: &mut Random) -> u32 {
    match random.below(6) {
        0 => limit(random),
        1 => random.pick(&[0, MINUS, NAN, INFINITY, INFINITY | MINUS]),
        2 => random.bits(),
        3 => word(random.between(0, 8) as f64 - 4.0),
        _ => middling_bits(random),
    }
}

fn base(random: &mut Random) -> Matrix {
    match random.below(6) {
        0 => normal(random),
        // Whole numbers and powers of two leave factors of exactly 0, and sizes that are exactly equal.
        1 => filled(|| word(random.between(0, 6) as f64 - 3.0)),
        2 => filled(|| power(random)),
        3 => triangle(random),
        4 => filled(|| middling_bits(random)),
        _ => diagonal(random),
    }
}

fn filled(mut entry: impl FnMut() -> u32) -> Matrix {
    let mut matrix = [[0; 4]; 4];
    matrix.iter_mut().flatten().for_each(|place| *place = entry());
    matrix
}

fn power(random: &mut Random) -> u32 {
    (random.between(120, 134) as u32) << 23 | random.pick(&[0, MINUS])
}

/// As a fit makes it: of 2 to 8 samples, so that it may be singular.
fn normal(random: &mut Random) -> Matrix {
    let samples = random.between(2, 8);
    let rows: Vec<[f64; 4]> = (0..samples)
        .map(|_| [1.0, random.range(-1.0, 1.0), random.range(-99.0, 99.0), random.range(-99.0, 99.0)])
        .collect();
    let mut matrix = [[0; 4]; 4];
    for (k, row) in matrix.iter_mut().enumerate() {
        for (l, place) in row.iter_mut().enumerate() {
            *place = word(rows.iter().map(|sample| sample[k] * sample[l]).sum());
        }
    }
    matrix
}

/// Its pivots are its own diagonal, each of which may be the one that stops.
fn triangle(random: &mut Random) -> Matrix {
    let upper = random.percent(50);
    let mut matrix = [[0; 4]; 4];
    for (k, row) in matrix.iter_mut().enumerate() {
        for (l, place) in row.iter_mut().enumerate() {
            let behind = if upper { l > k } else { l < k };
            *place = if k == l { pivot(random) } else if behind { word(random.between(0, 4) as f64 - 2.0) } else { random.pick(&[0, MINUS]) };
        }
    }
    matrix
}

fn diagonal(random: &mut Random) -> Matrix {
    let mut matrix = filled(|| random.pick(&[0, 0, 0, MINUS]));
    for (k, row) in matrix.iter_mut().enumerate() {
        row[k] = pivot(random);
    }
    matrix
}

/// Mostly a small power of two, else at the least size or next to it, or no number.
fn pivot(random: &mut Random) -> u32 {
    match random.below(12) {
        0 | 1 => nudged(random, LEAST) | random.pick(&[0, MINUS]),
        2 => random.pick(&[0, MINUS, NAN, INFINITY, INFINITY | MINUS, 1, 0x7f7f_ffff]),
        3 => limit(random),
        _ => power(random),
    }
}

fn spoil(random: &mut Random, matrix: &mut Matrix) {
    let (k, l, i) = (random.below(4), random.below(4), random.below(4));
    match random.below(10) {
        0 => matrix[k][i] = NAN,
        1 => matrix[k][i] = INFINITY | random.pick(&[0, MINUS]),
        2 => matrix[k][i] = random.pick(&[0, MINUS]),
        // Equal sizes in a column.
        3 => matrix[k][i] = matrix[l][i] ^ random.pick(&[0, MINUS]),
        4 => matrix[k][i] = nudged(random, LEAST) | random.pick(&[0, MINUS]),
        // A column of which the best pivot is about the least.
        5 => {
            for row in matrix.iter_mut() {
                row[i] = if random.percent(60) { nudged(random, LEAST) | random.pick(&[0, MINUS]) } else { random.pick(&[0, MINUS]) };
            }
        }
        6 => matrix.swap(k, l),
        // Two rows that are equal, or nearly.
        7 => {
            matrix[k] = matrix[l];
            matrix[k][i] = nudged(random, matrix[k][i]);
        }
        8 => matrix[k][i] = limit(random),
        // A row so large, or so small, that what is made of it leaves the range.
        _ => {
            let far = random.pick(&[0x7f00_0000, 0x7e80_0000, 0x2000_0000, 0x0080_0000]);
            matrix[k] = matrix[k].map(|bits| (f32::from_bits(bits) * f32::from_bits(far)).to_bits());
        }
    }
}
