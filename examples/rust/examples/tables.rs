//! Corners under a ring that does not move: its table is stored once, and every fit that makes a second start takes its
//! seed from there. Then what a refusal looks like: an angle that is NaN, and a fourth table, for which there is no room.
//! Neither changes the tables, so the fit that follows is answered as before.
//! The twin of examples/c/tables.c, and prints the same. From the folder of the crate: cargo run --example tables

use core::f32::consts::FRAC_PI_8;
use jengubool::{sin, tanh, Refusal, Tables};

const DEGREES: f32 = 57.29578; // in one radian

/// The brightness that the model expects at an angle, as a whole number. The library's own sine and tanh give the same
/// samples on every machine.
fn sample_at(angle: f32, axis1: f32, axis2: f32) -> f32 {
    let h1 = tanh(4.0 * sin(angle - axis1 / DEGREES));
    let h2 = tanh(4.0 * sin(angle - axis2 / DEGREES));
    (128.5 + 60.0 * h1 * h2).trunc()
}

fn report(refusal: Refusal) {
    println!("refused: number {}, place {}", refusal.number.code(), refusal.place);
}

fn fit_corner(tables: &Tables, angles: &[f32; 16], axis1: f32, axis2: f32) {
    let samples = angles.map(|angle| sample_at(angle, axis1, axis2));
    match tables.fit(&samples, angles) {
        Ok(fit) => {
            print!("axes {:.2} and {:.2} degrees, ", fit.theta1 * DEGREES, fit.theta2 * DEGREES);
            print!("amplitude {:.2} about a mean of {:.2}, ", fit.amp, fit.mean);
            println!("rms {:.3}, starts {}", fit.rms, fit.starts);
        }
        Err(refusal) => report(refusal),
    }
}

fn store(tables: &mut Tables, angles: &[f32; 16]) {
    match tables.store(angles) {
        Ok(()) => println!("a table is stored"),
        Err(refusal) => report(refusal),
    }
}

fn main() {
    let angles: [f32; 16] = core::array::from_fn(|i| i as f32 * FRAC_PI_8);
    let mut other = angles.map(|angle| angle + 0.5 * FRAC_PI_8); // a ring turned by half a step
    let mut tables = Tables::new();
    store(&mut tables, &angles);
    fit_corner(&tables, &angles, 20.0, 110.0);
    fit_corner(&tables, &angles, 30.0, 75.0);
    fit_corner(&tables, &angles, 100.0, 135.0);
    store(&mut tables, &other);
    other[5] = f32::NAN;
    store(&mut tables, &other);
    other[5] = 0.0;
    store(&mut tables, &other);
    store(&mut tables, &other);
    fit_corner(&tables, &angles, 30.0, 75.0);
}
