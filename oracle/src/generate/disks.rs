//! Disks as the preparation of the text would make them: pixels of a disk, values less their mean, gradients.

use super::curves::{atan2, cos, power_of_ten, sin, tanh};
use super::random::Random;
use super::values::word;
use std::f64::consts::PI;

/// The five runs of a disk in frame order, and what stands before them.
pub struct Made {
    /// Theta1, theta2, width, amp of the corner that was drawn.
    pub truth: [f64; 4],
    pub val_energy: u32,
    pub bases: [u32; 2],
    pub runs: [Vec<u32>; 5],
}

struct Corner {
    axes: [f64; 2],
    amp: f64,
    width: f64,
    noise: f64,
    blur: f64,
}

fn corner(random: &mut Random) -> Corner {
    let first = random.range(0.0, PI);
    let separation = match random.below(4) {
        0 | 1 => random.range(60.0, 120.0),
        2 => random.range(15.0, 60.0),
        _ => random.range(0.0, 180.0),
    };
    let amp = match random.below(12) {
        0 => 0.0,
        1 => power_of_ten(random.range(-5.0, 0.0)),
        _ => power_of_ten(random.range(0.5, 2.1)),
    };
    let noise = if random.percent(30) { 0.0 } else { random.range(0.0, 0.3) };
    Corner {
        axes: [first, first + separation * PI / 180.0],
        amp: amp * random.sign(),
        width: random.range(0.3, 3.0),
        noise,
        blur: if random.percent(30) { 0.0 } else { random.range(0.0, 0.4) },
    }
}

/// Pixels of the grid from 1 to `radius` away from a centre between pixels, row by row.
fn pixels(random: &mut Random, radius: f64) -> Vec<(f64, f64)> {
    let (cx, cy) = if random.percent(30) { (0.0, 0.0) } else { (random.range(-0.5, 0.5), random.range(-0.5, 0.5)) };
    let reach = radius as i32 + 1;
    let mut found = Vec::new();
    for y in -reach..=reach {
        for x in -reach..=reach {
            let (dx, dy) = (f64::from(x) - cx, f64::from(y) - cy);
            let square = dx * dx + dy * dy;
            if square <= radius * radius && square >= 1.0 {
                found.push((dx, dy));
            }
        }
    }
    found
}

fn scattered(random: &mut Random, most: usize) -> Vec<(f64, f64)> {
    let count = random.between(1, most);
    (0..count).map(|_| (random.range(-8.0, 8.0), random.range(-8.0, 8.0))).collect()
}

/// Value and gradient of the two-axis model at one pixel.
fn model(corner: &Corner, (x, y): (f64, f64)) -> (f64, f64, f64) {
    let side = |theta: f64| tanh((-sin(theta) * x + cos(theta) * y) / corner.width);
    let [h1, h2] = corner.axes.map(side);
    let [g1, g2] = [h1, h2].map(|h| corner.amp * (1.0 - h * h) / corner.width);
    let [first, second] = corner.axes;
    let gx = -sin(first) * g1 * h2 - sin(second) * g2 * h1;
    let gy = cos(first) * g1 * h2 + cos(second) * g2 * h1;
    (corner.amp * h1 * h2, gx, gy)
}

/// The angle between 0 and PI of the edge across a gradient.
fn edge_angle(gx: f64, gy: f64) -> f64 {
    let turned = atan2(gy, gx) + PI / 2.0;
    turned - (turned / PI).floor() * PI
}

fn bases(random: &mut Random, corner: &Corner) -> [u32; 2] {
    let spread = random.pick(&[0.0, 0.02, 0.2]);
    match random.below(5) {
        0 => [0.0, PI / 2.0].map(word),
        1 => [random.range(-4.0, 7.0), random.range(-4.0, 7.0)].map(word),
        _ => corner.axes.map(|axis| word(axis + spread * random.noise())),
    }
}

fn fill(random: &mut Random, corner: &Corner, at: &[(f64, f64)]) -> Made {
    let whole = random.percent(50);
    // Weights of 0, or so large that their sum overflows and edge scores are NaN.
    let heft = match random.below(50) {
        0 | 1 => 0.0,
        2 => power_of_ten(random.range(34.0, 38.0)),
        _ => 1.0,
    };
    let mut runs: [Vec<u32>; 5] = Default::default();
    let mut values = Vec::new();
    for &(x, y) in at {
        let (value, gx, gy) = model(corner, (x, y));
        let value = 128.0 + value + corner.noise * corner.amp.abs() * random.noise();
        let spread = corner.blur * corner.amp.abs() / 4.0;
        let (gx, gy) = (gx + spread * random.noise(), gy + spread * random.noise());
        values.push(if whole { value.round() as f32 } else { value as f32 });
        let weight = heft * (gx * gx + gy * gy).sqrt().min(1e38 / heft.max(1.0));
        for (run, x) in [(0, x), (1, y), (3, edge_angle(gx, gy)), (4, weight)] {
            runs[run].push(word(x));
        }
    }
    // Mean and energy in f32 and in this order, as the text's preparation takes them.
    let mean = values.iter().fold(0.0f32, |sum, value| sum + value) / values.len() as f32;
    let centred: Vec<f32> = values.iter().map(|value| value - mean).collect();
    let val_energy = centred.iter().fold(0.0f32, |sum, value| sum + value * value).to_bits();
    runs[2] = centred.into_iter().map(f32::to_bits).collect();
    let truth = [corner.axes[0], corner.axes[1], corner.width, corner.amp];
    Made { truth, val_energy, bases: bases(random, corner), runs }
}

/// Pixels so near the centre that hardly any trial has enough spread to answer.
fn shrink(random: &mut Random, at: &mut Vec<(f64, f64)>) {
    at.truncate(random.between(1, 6));
    let scale = power_of_ten(random.range(-3.8, -2.8));
    for pixel in at {
        *pixel = (scale * pixel.0, scale * pixel.1);
    }
}

/// At most `most` pixels, from all over the disk.
fn thin(at: &mut Vec<(f64, f64)>, most: usize) {
    if at.len() > most {
        *at = (0..most).map(|k| at[k * at.len() / most]).collect();
    }
}

/// About 200 pixels for most disks, if `most` allows, else any number from 1.
pub fn disk(random: &mut Random, most: usize) -> Made {
    let corner = corner(random);
    let radius = if random.percent(70) { 8.0 } else { random.range(1.5, 10.0) };
    let mut at = if random.percent(85) { pixels(random, radius) } else { scattered(random, most) };
    thin(&mut at, most);
    if random.percent(6) {
        shrink(random, &mut at);
    }
    if at.is_empty() {
        at.push((1.0, 0.0));
    }
    fill(random, &corner, &at)
}
