//! Rendered corners with known axes: a small picture of two dark and two bright sectors with soft edges, in whole grey
//! levels, of which rings of pixels are taken.

use super::curves::{cos, sin, tanh};
use super::frames::ring_line;
use super::random::Random;
use super::rings::{angle_of, pixel_ring};
use super::values::word;
use std::f64::consts::PI;

/// Points each way within a pixel, whose mean is the pixel's value.
const FINE: i32 = 4;

/// A dark sector lies between the first axis and the second, counted from the first.
pub struct Corner {
    pub axes: [f64; 2],
    pub mean: f64,
    amp: f64,
    width: f64,
    noise: f64,
    seeds: [u64; 2],
}

impl Corner {
    /// Between the axes 60 to 120 degrees: from 65 to 115 one start mostly does, beyond it the grid is asked.
    pub fn new(seed: u64, index: u64) -> Self {
        let random = &mut Random::new(seed, index);
        let first = random.range(0.0, PI);
        Self {
            axes: [first, first + random.range(60.0, 120.0) * PI / 180.0],
            mean: random.range(110.0, 145.0),
            amp: random.range(30.0, 100.0),
            width: random.range(0.5, 1.5),
            noise: random.range(0.0, 1.0),
            seeds: [seed, index],
        }
    }

    fn value(&self, x: f64, y: f64) -> f64 {
        let [first, second] = self.axes.map(|theta| tanh((cos(theta) * y - sin(theta) * x) / self.width));
        self.mean + self.amp * first * second
    }

    /// The grey level of a pixel. Its noise depends on its place alone, so that all rings see one picture.
    fn pixel(&self, (dx, dy): (i8, i8)) -> f64 {
        self.level([dx.into(), dy.into()], (i64::from(dx) << 8 ^ i64::from(dy)) as u64)
    }

    /// That of a pixel with its middle anywhere.
    fn level(&self, [x, y]: [f64; 2], place: u64) -> f64 {
        let noise = Random::new(self.seeds[0] ^ place.wrapping_mul(0x9e37_79b9), self.seeds[1]).noise();
        let at = |middle: f64, k: i32| middle + (f64::from(k) + 0.5) / f64::from(FINE) - 0.5;
        let fine = (0..FINE * FINE).map(|k| self.value(at(x, k / FINE), at(y, k % FINE)));
        (fine.sum::<f64>() / f64::from(FINE * FINE) + self.noise * noise).clamp(0.0, 255.0).round()
    }

    /// The grey levels of the ring of 16 pixels.
    pub fn on_pixels(&self) -> Vec<f64> {
        pixel_ring(16, 0).into_iter().map(|at| self.pixel(at)).collect()
    }

    /// The grey levels at these angles on a circle of radius 5.
    pub fn on_circle(&self, angles: &[f64]) -> Vec<f64> {
        let level = |(place, &phi): (usize, &f64)| self.level([5.0 * cos(phi), 5.0 * sin(phi)], place as u64);
        angles.iter().enumerate().map(level).collect()
    }

    /// The frame of a ring of pixels around the corner.
    pub fn line(&self, points: usize, which: usize) -> Vec<u8> {
        let ring = pixel_ring(points, which);
        let samples = ring.iter().map(|&at| word(self.pixel(at)));
        let angles = ring.iter().map(|&at| word(angle_of(at)));
        ring_line(points, &samples.chain(angles).collect::<Vec<_>>())
    }
}
