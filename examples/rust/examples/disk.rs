//! One disk fit: a skewed corner whose axes stand at 25 and 80 degrees, seen in whole grey values. Then the same disk
//! with a NaN, and one without contrast: both are refused.
//! The twin of examples/c/disk.c, and prints the same. From the folder of the crate: cargo run --example disk

use core::f32::consts::PI;
use jengubool::{atan2, cos, fit_disk, sin, sqrt, tanh, Disk};

const DEGREES: f32 = 57.29578; // in one radian
const CORNER: (f32, f32) = (0.3, -0.2); // between pixels, as corners are

/// The grey values of a picture with a corner in it, and what the fit wants to know of the pixels around it.
#[derive(Default)]
struct Picture {
    contrast: f32,
    xs: Vec<f32>,
    ys: Vec<f32>,
    vals: Vec<f32>,
    grad_angles: Vec<f32>,
    grad_weights: Vec<f32>,
}

/// On which side of the line through the corner (x, y) lies: from -1 to 1, since edges in a picture are soft.
fn side(x: f32, y: f32, angle: f32) -> f32 {
    tanh((cos(angle) * y - sin(angle) * x) / 0.8)
}

impl Picture {
    /// The library's own functions give the same picture on every machine.
    fn grey(&self, px: i32, py: i32) -> f32 {
        let (x, y) = (px as f32 - CORNER.0, py as f32 - CORNER.1);
        (128.5 + self.contrast * side(x, y, 25.0 / DEGREES) * side(x, y, 80.0 / DEGREES)).trunc()
    }

    /// The direction of the edge at a pixel, and its weight: the 3 by 3 Sobel gradient, turned by PI/2, modulo PI.
    fn gradient(&self, px: i32, py: i32) -> (f32, f32) {
        let (mut gx, mut gy) = (0.0, 0.0);
        for (k, factor) in [(-1, 1.0), (0, 2.0), (1, 1.0)] {
            gx += factor * (self.grey(px + 1, py + k) - self.grey(px - 1, py + k));
            gy += factor * (self.grey(px + k, py + 1) - self.grey(px + k, py - 1));
        }
        ((atan2(gy, gx) + PI * 0.5).rem_euclid(PI), sqrt(gx * gx + gy * gy))
    }

    fn add_pixel(&mut self, px: i32, py: i32) {
        let (x, y) = (px as f32 - CORNER.0, py as f32 - CORNER.1);
        if !(1.0..=64.0).contains(&(x * x + y * y)) {
            return;
        }
        let (angle, weight) = self.gradient(px, py);
        self.vals.push(self.grey(px, py));
        self.xs.push(x);
        self.ys.push(y);
        self.grad_angles.push(angle);
        self.grad_weights.push(weight);
    }

    /// All pixels from 1 to 8 away from the corner.
    fn with_contrast(contrast: f32) -> Self {
        let mut picture = Self { contrast, ..Self::default() };
        for py in -9..=9 {
            for px in -9..=9 {
                picture.add_pixel(px, py);
            }
        }
        let mean = picture.vals.iter().fold(0.0, |sum, v| sum + v) / picture.vals.len() as f32;
        picture.vals.iter_mut().for_each(|v| *v -= mean);
        picture
    }

    /// The first guess, 20 and 90 degrees, is what a ring fit would bring: near, but not good enough.
    fn disk(&self) -> Disk<'_> {
        Disk {
            val_energy: self.vals.iter().fold(0.0, |sum, v| sum + v * v),
            base0: 20.0 / DEGREES,
            base1: 90.0 / DEGREES,
            xs: &self.xs,
            ys: &self.ys,
            vals_centered: &self.vals,
            grad_angles: &self.grad_angles,
            grad_weights: &self.grad_weights,
        }
    }
}

fn report(disk: &Disk<'_>) {
    let fit = match fit_disk(disk) {
        Ok(fit) => fit,
        Err(refusal) => return println!("refused: number {}, place {}", refusal.number.code(), refusal.place),
    };
    print!("axes {:.2} and {:.2} degrees", fit.theta1 * DEGREES, fit.theta2 * DEGREES);
    match fit.errors() {
        Some([e1, e2]) => println!(", errors {:.2} and {:.2} degrees", e1 * DEGREES, e2 * DEGREES),
        None => println!(", errors not known"),
    }
    println!("width {:.2}, amplitude {:.2}, rms {:.3}, correlation {:.4}", fit.width, fit.amp, fit.rms, fit.corr);
    println!("pixels {}, trials {}", disk.xs.len(), fit.trials);
}

fn main() {
    let mut picture = Picture::with_contrast(60.0);
    report(&picture.disk());
    picture.ys[7] = f32::NAN;
    report(&picture.disk());
    report(&Picture::with_contrast(0.0).disk());
}
