//! Lines of stored tables (67 to 69): rings whose angles a table has, nearly has or has not; seed models; tables to be stored.

use super::corners::Corner;
use super::curves::{sin, tanh};
use super::random::Random;
use super::rings::{faint, mirrored, pixel_angles, ring, skewed, skewed_samples};
use super::values::{drawn, finite_bits, finite_limit, limit, nudged, word, Taste};
use shapes::{Angles, Ring, TABLES};
use std::f64::consts::PI;

const POINTS: usize = 16;
/// As the text has it.
const WITHIN: f32 = 1e-6;
const NOT_FINITE: [u32; 4] = [0x7f80_0000, 0xff80_0000, 0x7fc0_0000, 0xffff_ffff];

pub fn arguments(random: &mut Random, taste: Taste, number: u8) -> Vec<u32> {
    match number {
        67 => fit(random, taste),
        68 => model(random, taste),
        _ => storing(random, taste),
    }
}

/// The tables first, then the ring. One line in a hundred has a table too many, one an angle that is not finite: they are none.
fn fit(random: &mut Random, taste: Taste) -> Vec<u32> {
    let mut ring = ring_beside(random, taste);
    let angles: Angles = std::array::from_fn(|i| f32::from_bits(ring[POINTS + i]));
    let count = if random.percent(1) { TABLES + 1 } else { random.pick(&[0, 1, 1, 2, 2, 3, 3, 3]) };
    let mut tables: Vec<Angles> = Vec::new();
    for _ in 0..count {
        let made = table(random, &angles, &tables);
        tables.push(made.map(|angle| if angle.is_finite() { angle } else { f32::from_bits(finite_limit(random)) }));
    }
    if count > 0 && random.percent(1) {
        tables[random.below(count)][random.below(POINTS)] = f32::from_bits(random.pick(&NOT_FINITE));
    }
    // The tables are those of the ring as it was.
    if random.percent(6) {
        let wild = [random.pick(&NOT_FINITE), limit(random)];
        ring[random.below(2 * POINTS)] = random.pick(&wild);
    }
    let words = tables.iter().flatten().map(|angle| angle.to_bits());
    [count as u32].into_iter().chain(words).chain(ring).collect()
}

/// Mostly a ring that asks for the grid.
fn ring_beside(random: &mut Random, taste: Taste) -> Vec<u32> {
    match random.below(20) {
        0..=9 => skewed(random, POINTS),
        10 | 11 => mirrored(random),
        12..=14 => ring(random, POINTS),
        15 => faint(random, POINTS),
        16 => {
            // All angles alike: what models a table of them has are of rounding alone.
            let mut words = skewed(random, POINTS);
            words[POINTS..].fill(drawn(random, taste, -7.0, 7.0));
            words
        }
        17 => {
            // Angles of any size, which the samples know nothing of.
            let mut words = skewed(random, POINTS);
            words[POINTS..].fill_with(|| finite_bits(random));
            words
        }
        18 => large(random),
        _ => (0..2 * POINTS).map(|_| drawn(random, taste, -8.0, 8.0)).collect(),
    }
}

/// Samples so large that the sum of their squares overflows, or nearly.
fn large(random: &mut Random) -> Vec<u32> {
    let mut words = skewed(random, POINTS);
    let scale = random.range(1.0, 9.0) as f32 * random.pick(&[1e16, 1e17, 1e18, 1e19]);
    for sample in &mut words[..POINTS] {
        *sample = (f32::from_bits(*sample) * scale).to_bits();
    }
    words
}

/// A table for a ring of these angles, behind those before it.
fn table(random: &mut Random, angles: &Angles, before: &[Angles]) -> Angles {
    match random.below(20) {
        0..=3 => *angles,
        4..=6 => angles.map(|angle| angle + WITHIN * random.range(-0.95, 0.95) as f32),
        7..=10 => {
            // All others are the ring's own, so that one angle decides.
            let mut table = *angles;
            let at = smallest_or_any(random, angles);
            table[at] = edge(random, angles[at]);
            table
        }
        11 => angles.map(|angle| if random.percent(50) { edge(random, angle) } else { angle }),
        12 => {
            let mut table = *angles;
            let at = random.below(POINTS);
            table[at] += random.pick(&[1e-5, -1e-5, 1e-3, 1.0, 2.0 * PI as f32]);
            table
        }
        13 | 14 => other_ring(random),
        15 => [f32::from_bits(finite_limit(random)); POINTS],
        16 => std::array::from_fn(|_| f32::from_bits(finite_bits(random))),
        _ => match before {
            [] => *angles,
            _ => before[random.below(before.len())],
        },
    }
}

/// Only where an angle is small can a difference be 1e-6 itself, or the f32 beside it.
fn smallest_or_any(random: &mut Random, angles: &Angles) -> usize {
    let smallest = (0..POINTS).fold(0, |least, i| if angles[i].abs() < angles[least].abs() { i } else { least });
    if random.percent(60) { smallest } else { random.below(POINTS) }
}

/// An angle that is 1e-6 off, or a bit more or less.
fn edge(random: &mut Random, angle: f32) -> f32 {
    let off = if random.percent(50) { WITHIN } else { -WITHIN };
    f32::from_bits(nudged(random, (angle + off).to_bits()))
}

fn other_ring(random: &mut Random) -> Angles {
    if random.percent(30) {
        let pixels = pixel_angles(POINTS);
        return std::array::from_fn(|i| pixels[i] as f32);
    }
    let phase = random.range(-PI, PI);
    std::array::from_fn(|i| (phase + i as f64 * PI / 8.0) as f32)
}

/// Centred values, their sum of squares, mean, and a model: one of a pair of the grid, or any words.
fn model(random: &mut Random, taste: Taste) -> Vec<u32> {
    let mut words = if random.percent(60) { true_model(random) } else { (0..38).map(|_| drawn(random, taste, -8.0, 8.0)).collect() };
    if random.percent(2) {
        // Every product is -0, and so would be a sum that did not begin at +0.
        words[..POINTS].fill(0x8000_0000);
        words[21..37].iter_mut().for_each(|word| *word &= 0x7fff_ffff);
    }
    if random.percent(20) {
        let tiny = random.bits() & 0x807f_ffff;
        let odd = [0.0, -0.0, -1.0, 1e-45, -1e-45, 1.1754944e-38, 1e-30, 1e-6, f32::MAX, f32::INFINITY, f32::NEG_INFINITY, f32::NAN];
        let odd = random.pick(&odd).to_bits();
        words[37] = random.pick(&[tiny, odd, odd]);
    } else if taste != Taste::Everyday && random.percent(30) {
        words[random.below(38)] = drawn(random, taste, -8.0, 8.0);
    }
    words
}

fn true_model(random: &mut Random) -> Vec<u32> {
    let angles = other_ring(random).map(f64::from);
    let first = random.below(21);
    let [theta1, theta2] = [first, random.between(first + 1, 22)].map(|step| step as f64 * 8.0 * PI / 180.0);
    let q = angles.map(|phi| tanh(4.0 * sin(phi - theta1)) * tanh(4.0 * sin(phi - theta2)));
    let q_mean = q.iter().sum::<f64>() / POINTS as f64;
    let denom = q.iter().map(|x| (x - q_mean) * (x - q_mean)).sum::<f64>();
    let (amp, noise) = (random.range(-100.0, 100.0), random.pick(&[0.0, 1e-3, 1.0, 20.0]));
    let values = q.map(|x| amp * (x - q_mean) + noise * random.noise());
    // At or just below what the model explains, so that the residual comes down to the last bits or is cut at 0.
    let share = random.pick(&[1.0, 1.0, 1.0, 0.9999999, 1.0000001, 0.5]);
    let square = share * values.iter().map(|x| x * x).sum::<f64>();
    let scalars = [square, random.range(0.0, 255.0), theta1, theta2, q_mean];
    let q_centered = q.map(|x| x - q_mean);
    values.iter().chain(&scalars).chain(&q_centered).chain(&[denom]).map(|&x| word(x)).collect()
}

/// Up to one table more than can be held; one line in fifty has two more, and is none.
fn storing(random: &mut Random, taste: Taste) -> Vec<u32> {
    let count = if random.percent(2) { TABLES + 2 } else { random.pick(&[0, 1, 2, 3, 3, 4, 4, 4]) };
    let mut words = vec![count as u32];
    for _ in 0..count {
        let start = words.len();
        let wild = random.percent(15);
        for angle in other_ring(random) {
            words.push(if wild { drawn(random, taste, -7.0, 7.0) } else { angle.to_bits() });
        }
        if random.percent(30) {
            for _ in 0..random.between(1, 2) {
                words[start + random.below(POINTS)] = random.pick(&NOT_FINITE);
            }
        }
    }
    words
}

/// What is seen on a ring that never moves.
#[derive(Clone, Copy)]
enum Seen {
    Rendered,
    Skewed,
    /// With a mirror at the middle of the grid, in grey levels: the ring is an even one.
    Mirrored,
}

/// A ring that never moves: its pixels, or even.
pub struct Fixed {
    pub name: &'static str,
    is_even: bool,
    seen: Seen,
}

pub const FIXED: [Fixed; 5] = [
    Fixed { name: "ring of pixels, rendered corners", is_even: false, seen: Seen::Rendered },
    Fixed { name: "even ring, rendered corners", is_even: true, seen: Seen::Rendered },
    Fixed { name: "ring of pixels, skewed corners", is_even: false, seen: Seen::Skewed },
    Fixed { name: "even ring, skewed corners", is_even: true, seen: Seen::Skewed },
    Fixed { name: "even ring, mirrored samples", is_even: true, seen: Seen::Mirrored },
];

impl Fixed {
    pub fn ring(&self, seed: u64, index: u64) -> Ring<16> {
        let random = &mut Random::new(seed, index);
        let even = || (0..POINTS).map(|i| i as f64 * PI / 8.0).collect();
        let angles: Vec<f64> = if self.is_even { even() } else { pixel_angles(POINTS) };
        let samples = match (self.seen, self.is_even) {
            (Seen::Skewed, _) => skewed_samples(random, &angles),
            (Seen::Rendered, true) => Corner::new(seed, index).on_circle(&angles),
            (Seen::Rendered, false) => Corner::new(seed, index).on_pixels(),
            (Seen::Mirrored, _) => return mirrored_ring(random),
        };
        Ring { samples: std::array::from_fn(|i| samples[i] as f32), angles: std::array::from_fn(|i| angles[i] as f32) }
    }
}

fn mirrored_ring(random: &mut Random) -> Ring<16> {
    loop {
        let values: Vec<f32> = mirrored(random).into_iter().map(f32::from_bits).collect();
        if values.iter().all(|x| x.abs() < 256.0) {
            return Ring { samples: std::array::from_fn(|i| values[i]), angles: std::array::from_fn(|i| values[POINTS + i]) };
        }
    }
}
