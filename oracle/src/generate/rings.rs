//! Rings as a camera might see them: two dark and two bright sectors on a circle of 16 or 24 points.

use super::curves::{atan2, power_of_ten, sin, tanh};
use super::random::Random;
use super::values::{finite_limit, word};
use std::f64::consts::PI;

/// Offsets of a 16 point ring of radius 5 on the pixel grid.
const OFFSETS: [(i8, i8); 16] = [
    (0, -5), (2, -5), (3, -3), (5, -2), (5, 0), (5, 2), (3, 3), (2, 5),
    (0, 5), (-2, 5), (-3, 3), (-5, 2), (-5, 0), (-5, -2), (-3, -3), (-2, -5),
];

/// A quarter of the 24 pixels nearest to a circle of radius 5 and of radius 7, every 15 degrees.
const QUARTERS: [[(i8, i8); 6]; 2] = [
    [(5, 0), (5, 1), (4, 3), (4, 4), (3, 4), (1, 5)],
    [(7, 0), (7, 2), (6, 4), (5, 5), (4, 6), (2, 7)],
];

/// The pixels of a ring of `n` points around the middle one; of 24 points there are two such rings.
pub fn pixel_ring(n: usize, which: usize) -> Vec<(i8, i8)> {
    if n == OFFSETS.len() {
        return OFFSETS.to_vec();
    }
    let turned = |turns: usize| QUARTERS[which].map(|at| (0..turns).fold(at, |(dx, dy), _| (-dy, dx)));
    (0..4).flat_map(turned).collect()
}

pub fn angle_of((dx, dy): (i8, i8)) -> f64 {
    atan2(f64::from(dy), f64::from(dx))
}

fn angles(random: &mut Random, n: usize) -> Vec<f64> {
    if random.percent(60) {
        let which = if n == OFFSETS.len() { 0 } else { random.below(QUARTERS.len()) };
        return pixel_ring(n, which).into_iter().map(angle_of).collect();
    }
    let phase = random.range(-PI, PI);
    (0..n).map(|i| phase + i as f64 * PI / (n / 2) as f64).collect()
}

/// Degrees between the axes: mostly near a right angle, often skewed enough to be suspicious.
fn separation(random: &mut Random) -> f64 {
    match random.below(10) {
        0..=5 => random.range(70.0, 110.0),
        6..=8 => random.range(12.0, 60.0),
        _ => random.range(0.0, 180.0),
    }
}

struct Look {
    amp: f64,
    mean: f64,
    slope: f64,
    noise: f64,
    whole: bool,
}

fn look(random: &mut Random) -> Look {
    let amp = match random.below(50) {
        0 | 1 => 0.0,
        2 | 3 => power_of_ten(random.range(-6.0, 0.5)),
        4 | 5 => power_of_ten(random.range(3.0, 9.0)),
        // The sum of squares overflows, that of the residuals need not.
        6 => power_of_ten(random.range(18.2, 19.2)),
        _ => power_of_ten(random.range(0.3, 2.1)),
    };
    let noise = match random.below(4) {
        0 => 0.0,
        1 | 2 => random.range(0.0, 0.08),
        _ => random.range(0.0, 0.8),
    };
    Look {
        amp: amp * random.sign(),
        mean: random.range(0.0, 255.0),
        slope: random.range(0.7, 12.0),
        noise: noise * amp,
        whole: amp < 1e3 && random.percent(50),
    }
}

fn samples(random: &mut Random, angles: &[f64]) -> Vec<f64> {
    let look = look(random);
    let first = random.range(0.0, PI);
    let second = first + separation(random) * PI / 180.0;
    seen(random, angles, &look, [first, second])
}

fn seen(random: &mut Random, angles: &[f64], look: &Look, [first, second]: [f64; 2]) -> Vec<f64> {
    let sample = |&phi: &f64| {
        let model = tanh(look.slope * sin(phi - first)) * tanh(look.slope * sin(phi - second));
        let value = look.mean + look.amp * model + look.noise * random.noise();
        if look.whole {
            value.clamp(0.0, 255.0).round()
        } else {
            value
        }
    };
    angles.iter().map(sample).collect()
}

/// The angles of the ring of pixels.
pub fn pixel_angles(n: usize) -> Vec<f64> {
    pixel_ring(n, 0).into_iter().map(angle_of).collect()
}

/// Samples at these angles of a corner that is no right angle, so that mostly the grid is asked.
pub fn skewed_samples(random: &mut Random, angles: &[f64]) -> Vec<f64> {
    let amp = power_of_ten(random.range(0.5, 2.1));
    let noise = random.pick(&[0.0, 0.02, 0.1, 0.5]) * random.unit();
    let look = Look {
        amp: amp * random.sign(),
        mean: random.range(0.0, 255.0),
        slope: random.range(0.7, 12.0),
        noise: noise * amp,
        whole: random.percent(50),
    };
    let first = random.range(0.0, PI);
    let apart = if random.percent(60) { random.range(15.0, 64.0) } else { random.range(116.0, 165.0) };
    seen(random, angles, &look, [first, first + apart * PI / 180.0])
}

/// A ring for the grid: of pixels, or even, then often with one angle near 0.
pub fn skewed(random: &mut Random, n: usize) -> Vec<u32> {
    let angles: Vec<f64> = if random.percent(50) {
        pixel_angles(n)
    } else {
        let near = power_of_ten(random.range(-8.0, -5.0)) * random.sign();
        let phase = if random.percent(40) { near } else { random.range(-PI, PI) };
        (0..n).map(|i| phase + (i as f64 - 4.0) * PI / (n / 2) as f64).collect()
    };
    let samples = skewed_samples(random, &angles);
    samples.into_iter().chain(angles).map(word).collect()
}

/// An even ring and its samples with a mirror at the middle of the grid, 88 degrees: a pair of the grid and its image explain
/// them alike, and rounding decides between the two.
pub fn mirrored(random: &mut Random) -> Vec<u32> {
    let angles: Vec<f64> = (0..16).map(|i| 88.0 * PI / 180.0 + f64::from(i - 8) * PI / 8.0).collect();
    let mut samples = if random.percent(30) { skewed_samples(random, &angles) } else { scattered(random, 16) };
    for i in 1..8 {
        samples[16 - i] = samples[i];
    }
    samples.into_iter().chain(angles).map(word).collect()
}

/// Opposite samples cancel: no pair of axes explains them, so seeds have hardly any amplitude.
fn odd(random: &mut Random, angles: &[f64]) -> Vec<f64> {
    let amp = power_of_ten(random.range(0.0, 7.0));
    let (phase, part) = (random.range(0.0, PI), random.range(-1.0, 1.0));
    angles.iter().map(|phi| amp * (sin(phi - phase) + part * sin(3.0 * phi))).collect()
}

/// Angles that hardly tell axes apart: all alike, of two directions, or close together.
fn strange(random: &mut Random, n: usize) -> Vec<f64> {
    let (first, second) = (random.range(-PI, PI), random.range(-PI, PI));
    let spread = power_of_ten(random.range(-6.0, -1.0));
    let form = random.below(4);
    let angle = |i: usize| match form {
        0 => first,
        1 => if i % 2 == 0 { first } else { second },
        2 => first + PI * (i % 2) as f64,
        _ => first + spread * i as f64,
    };
    (0..n).map(angle).collect()
}

/// Samples without any order, of any size.
fn scattered(random: &mut Random, n: usize) -> Vec<f64> {
    let amp = if random.percent(20) { random.range(18.0, 19.2) } else { random.range(0.0, 9.0) };
    let amp = power_of_ten(amp);
    (0..n).map(|_| amp * random.noise()).collect()
}

/// The samples, then as many angles: 16 or 24.
pub fn ring(random: &mut Random, n: usize) -> Vec<u32> {
    let is_strange = random.percent(4);
    let angles = if is_strange { strange(random, n) } else { angles(random, n) };
    let samples = match random.below(25) {
        0 => odd(random, &angles),
        1 => scattered(random, n),
        2..=12 if is_strange => scattered(random, n),
        _ => samples(random, &angles),
    };
    samples.into_iter().chain(angles).map(word).collect()
}

/// A ring at or beyond the verge of a degenerate start: all samples alike, -0 among them; a variance near its bound; seeds that
/// have hardly any amplitude; sums that overflow. The mean is then the seed's.
pub fn faint(random: &mut Random, n: usize) -> Vec<u32> {
    let angles = angles(random, n);
    let samples: Vec<u32> = match random.below(5) {
        0 => {
            let limit = finite_limit(random);
            vec![random.pick(&[0x8000_0000, 0x8000_0001, 0, limit]); n]
        }
        1 => {
            let (value, spread) = (random.range(-255.0, 255.0), power_of_ten(random.range(-4.0, -2.0)));
            (0..n).map(|_| word(value + spread * random.noise())).collect()
        }
        2 | 3 => odd(random, &angles).into_iter().map(word).collect(),
        _ => {
            let size = power_of_ten(random.range(36.5, 38.5));
            (0..n).map(|_| word((size * (0.2 + random.noise())).clamp(-3.4e38, 3.4e38))).collect()
        }
    };
    samples.into_iter().chain(angles.into_iter().map(word)).collect()
}
