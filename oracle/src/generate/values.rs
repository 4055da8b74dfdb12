//! Words: limits, thresholds of the Rust text, random bits, everyday values.

use super::random::Random;
use std::f32::consts::{FRAC_PI_2, FRAC_PI_4, PI, TAU};

/// Values where something changes: in the format, in the text, or in the five functions.
pub const LIMITS: [f32; 61] = [
    0.0, 1e-45, 1.1754942e-38, 1.1754944e-38, 1e-30, 1e-20, 1e-12, 1e-9, 2e-9, 1e-6, 1e-5, 1e-4, 1e-3, 0.01, 0.12, 0.25,
    0.35, 0.5, 0.7, 0.75, 0.999, 1.0, 1.25, 1.4, 2.0, 2.8, 4.0, 6.0, 8.0, 9.25, 10.0, 16.0, 64.0, 72.0, 87.33655, 88.72284,
    100.0, 127.0, 8388608.0, 16777216.0, 1e9, 4294967296.0, 18446744073709551616.0, 1e19, 1e20, 1e30, 1e38, f32::MAX,
    f32::INFINITY, f32::NAN, PI, TAU, FRAC_PI_2, FRAC_PI_4, 3.0 * FRAC_PI_4, 12.0 * DEGREE, 65.0 * DEGREE, 89.5 * DEGREE,
    115.0 * DEGREE, 4.0 * DEGREE, DEGREE,
];
pub const DEGREE: f32 = PI / 180.0;

/// A limit of either sign, or one of its neighbours.
pub fn limit(random: &mut Random) -> u32 {
    let value = random.pick(&LIMITS);
    let bits = match random.below(8) {
        0 => value.to_bits().wrapping_add(1),
        1 => value.to_bits().wrapping_sub(1),
        2 => value.to_bits().wrapping_add(2),
        _ => value.to_bits(),
    };
    bits ^ if random.percent(40) { 0x8000_0000 } else { 0 }
}

pub fn finite_limit(random: &mut Random) -> u32 {
    until(random, limit, |bits| f32::from_bits(bits).is_finite())
}

pub fn finite_bits(random: &mut Random) -> u32 {
    until(random, Random::bits, |bits| f32::from_bits(bits).is_finite())
}

fn until(random: &mut Random, make: impl Fn(&mut Random) -> u32, good: impl Fn(u32) -> bool) -> u32 {
    loop {
        let bits = make(random);
        if good(bits) {
            return bits;
        }
    }
}

/// Any digits, but a size between 2^-12 and 2^12, so that sums and products stay at work.
pub fn middling_bits(random: &mut Random) -> u32 {
    let exponent = random.between(115, 139) as u32;
    random.bits() & 0x807f_ffff | exponent << 23
}

pub fn word(x: f64) -> u32 {
    (x as f32).to_bits()
}

/// How the words of one line are drawn.
#[derive(Clone, Copy, PartialEq)]
pub enum Taste {
    Everyday,
    Middling,
    Bits,
    Limits,
    Mixed,
}

pub fn taste(random: &mut Random) -> Taste {
    match random.below(100) {
        0..=44 => Taste::Everyday,
        45..=54 => Taste::Middling,
        55..=69 => Taste::Bits,
        70..=84 => Taste::Limits,
        _ => Taste::Mixed,
    }
}

/// One word; `everyday` lies from `low` to `high`.
pub fn drawn(random: &mut Random, taste: Taste, low: f64, high: f64) -> u32 {
    match taste {
        Taste::Everyday => word(random.range(low, high)),
        Taste::Middling => middling_bits(random),
        Taste::Bits => random.bits(),
        Taste::Limits => limit(random),
        Taste::Mixed => {
            let one = random.pick(&[Taste::Everyday, Taste::Everyday, Taste::Middling, Taste::Bits, Taste::Limits]);
            drawn(random, one, low, high)
        }
    }
}

/// The word itself or a near neighbour: for comparisons that turn on the last bit.
pub fn nudged(random: &mut Random, bits: u32) -> u32 {
    match random.below(6) {
        0 => bits.wrapping_add(1),
        1 => bits.wrapping_sub(1),
        2 => bits.wrapping_add(random.below(5) as u32),
        _ => bits,
    }
}
