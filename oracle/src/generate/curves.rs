//! Curves for made-up corners, by `+ - * /` and square root alone: the same lines on every machine, whatever its
//! mathematical library. They need not be accurate to the last bit.

use std::f64::consts::PI;

pub fn sin(x: f64) -> f64 {
    let turns = (x / (2.0 * PI)).round();
    let r = x - turns * 2.0 * PI;
    let square = r * r;
    let mut term = r;
    let mut sum = r;
    for k in 1..16 {
        let k = f64::from(2 * k);
        term *= -square / (k * (k + 1.0));
        sum += term;
    }
    sum
}

pub fn cos(x: f64) -> f64 {
    sin(x + PI / 2.0)
}

fn exp(x: f64) -> f64 {
    let r = x / 1024.0;
    let mut value = 1.0 + r * (1.0 + r / 2.0 * (1.0 + r / 3.0 * (1.0 + r / 4.0 * (1.0 + r / 5.0))));
    for _ in 0..10 {
        value *= value;
    }
    value
}

pub fn tanh(x: f64) -> f64 {
    let e = exp(2.0 * x.clamp(-20.0, 20.0));
    (e - 1.0) / (e + 1.0)
}

/// Ten to the power of `x`.
pub fn power_of_ten(x: f64) -> f64 {
    exp(x * std::f64::consts::LN_10)
}

pub fn atan2(y: f64, x: f64) -> f64 {
    let length = (x * x + y * y).sqrt();
    if length == 0.0 {
        return 0.0;
    }
    // Halving the angle three times makes the series short.
    let mut t = if x >= 0.0 { y / (length + x) } else { (length - x) / if y == 0.0 { 1e-300 } else { y } };
    if t.abs() > 1e30 {
        return PI.copysign(y);
    }
    for _ in 0..3 {
        t /= 1.0 + (1.0 + t * t).sqrt();
    }
    let mut power = t;
    let mut sum = 0.0;
    for k in 0..16 {
        sum += power / f64::from(2 * k + 1);
        power *= -t * t;
    }
    16.0 * sum
}
