//! What core lacks and std would supply, under the same names, so that the text compiles as it stands: the five
//! functions are those of five.rs, the rest is Rust's own, by way of support.rs.

use crate::five;

extern "C" {
    fn oracle_sqrt(x: f32) -> f32;
    fn oracle_floor(x: f32) -> f32;
    fn oracle_ceil(x: f32) -> f32;
    fn oracle_rem_euclid(x: f32, divisor: f32) -> f32;
}

pub trait Float: Copy {
    fn sin(self) -> f32;
    fn cos(self) -> f32;
    fn sin_cos(self) -> (f32, f32);
    fn tanh(self) -> f32;
    fn exp(self) -> f32;
    fn atan2(self, x: f32) -> f32;
    fn sqrt(self) -> f32;
    fn floor(self) -> f32;
    fn ceil(self) -> f32;
    fn rem_euclid(self, divisor: f32) -> f32;
}

// SAFETY of every call marked so below: the functions take and return numbers and touch no memory.
impl Float for f32 {
    fn sin(self) -> f32 {
        five::sin(self)
    }
    fn cos(self) -> f32 {
        five::cos(self)
    }
    fn sin_cos(self) -> (f32, f32) {
        (self.sin(), self.cos())
    }
    fn tanh(self) -> f32 {
        five::tanh(self)
    }
    fn exp(self) -> f32 {
        five::exp(self)
    }
    fn atan2(self, x: f32) -> f32 {
        five::atan2(self, x)
    }
    fn sqrt(self) -> f32 {
        unsafe { oracle_sqrt(self) }
    }
    fn floor(self) -> f32 {
        unsafe { oracle_floor(self) }
    }
    fn ceil(self) -> f32 {
        unsafe { oracle_ceil(self) }
    }
    fn rem_euclid(self, divisor: f32) -> f32 {
        unsafe { oracle_rem_euclid(self, divisor) }
    }
}
