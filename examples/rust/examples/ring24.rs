//! One corner seen twice, its axes at 20 and 110 degrees: by a ring of 24 samples and by one of 16, both in whole grey
//! values. Then the ring of 16 is given to the fit for 24, which refuses it.
//! The twin of examples/c/ring24.c, and prints the same. From the folder of the crate: cargo run --example ring24

use core::f32::consts::PI;
use jengubool::{fit_ring, fit_ring24, sin, tanh, Refusal, RingFit};

const DEGREES: f32 = 57.29578; // in one radian

/// The brightness that the model expects at an angle, as a whole number. The library's own sine and tanh give the same
/// samples on every machine.
fn sample_at(angle: f32) -> f32 {
    let h1 = tanh(4.0 * sin(angle - 20.0 / DEGREES));
    let h2 = tanh(4.0 * sin(angle - 110.0 / DEGREES));
    (128.5 + 60.0 * h1 * h2).trunc()
}

fn report(answer: Result<RingFit, Refusal>) {
    match answer {
        Ok(fit) => {
            print!("axes {:.2} and {:.2} degrees", fit.theta1 * DEGREES, fit.theta2 * DEGREES);
            println!(", amplitude {:.2}, rms {:.3}", fit.amp, fit.rms);
        }
        Err(refusal) => println!("refused: number {}, place {}", refusal.number.code(), refusal.place),
    }
}

fn main() {
    let angles: [f32; 24] = core::array::from_fn(|i| i as f32 * (PI / 12.0));
    report(fit_ring24(&angles.map(sample_at), &angles));
    let angles: [f32; 16] = core::array::from_fn(|i| i as f32 * (PI / 8.0));
    report(fit_ring(&angles.map(sample_at), &angles));
    report(fit_ring24(&angles.map(sample_at), &angles));
}
