//! One ring fit: a corner whose axes stand at 20 and 110 degrees, in whole grey values, then the same with a NaN.
//! The twin of examples/c/ring.c, and prints the same. From the folder of the crate: cargo run --example ring

use core::f32::consts::FRAC_PI_8;
use jengubool::{fit_ring, sin, tanh};

const DEGREES: f32 = 57.29578; // in one radian

/// The brightness that the model expects at an angle, as a whole number. The library's own sine and tanh give the same
/// samples on every machine.
fn sample_at(angle: f32) -> f32 {
    let h1 = tanh(4.0 * sin(angle - 20.0 / DEGREES));
    let h2 = tanh(4.0 * sin(angle - 110.0 / DEGREES));
    (128.5 + 60.0 * h1 * h2).trunc()
}

fn report(samples: &[f32], angles: &[f32]) {
    let fit = match fit_ring(samples, angles) {
        Ok(fit) => fit,
        Err(refusal) => return println!("refused: number {}, place {}", refusal.number.code(), refusal.place),
    };
    print!("axes {:.2} and {:.2} degrees", fit.theta1 * DEGREES, fit.theta2 * DEGREES);
    match fit.errors() {
        Some([e1, e2]) => println!(", errors {:.2} and {:.2} degrees", e1 * DEGREES, e2 * DEGREES),
        None => println!(", errors not known"),
    }
    println!("amplitude {:.2} about a mean of {:.2}, rms {:.3}", fit.amp, fit.mean, fit.rms);
    println!("starts {}, updates {} and {}", fit.starts, fit.first_updates, fit.second_updates);
}

fn main() {
    let angles: [f32; 16] = core::array::from_fn(|i| i as f32 * FRAC_PI_8);
    let mut samples = angles.map(sample_at);
    report(&samples, &angles);
    samples[5] = f32::NAN;
    report(&samples, &angles);
}
