//! What the edited text uses beyond core: the functions of ours.rs, and the choices of docs/RULES.md where Rust leaves the
//! answer open. In the `libm` copy std has the functions and Rust decides all.

#[cfg(functions = "ours")]
pub use crate::ours::Float;

/// Nothing is lacking where std is at hand.
#[cfg(functions = "platform")]
pub trait Float {}

/// The choices of docs/RULES.md, Floats: `max` and `min` drop a NaN and take +0 as greater than -0.
pub trait Choice: Copy {
    fn max_given(self, other: Self) -> Self;
    fn min_given(self, other: Self) -> Self;
}

macro_rules! choice {
    ($float:ty) => {
        impl Choice for $float {
            #[inline]
            fn max_given(self, other: Self) -> Self {
                match zeros_or_nan(self.is_nan(), other.is_nan(), self == 0.0 && other == 0.0) {
                    Special::DropFirst => other,
                    Special::DropSecond => self,
                    Special::Zeros if self.is_sign_positive() => self,
                    Special::Zeros => other,
                    Special::Plain => self.max(other),
                }
            }
            #[inline]
            fn min_given(self, other: Self) -> Self {
                match zeros_or_nan(self.is_nan(), other.is_nan(), self == 0.0 && other == 0.0) {
                    Special::DropFirst => other,
                    Special::DropSecond => self,
                    Special::Zeros if self.is_sign_negative() => self,
                    Special::Zeros => other,
                    Special::Plain => self.min(other),
                }
            }
        }
    };
}
#[cfg(functions = "ours")]
choice!(f32);
#[cfg(functions = "ours")]
choice!(f64);

/// As the Rust is: the `libm` copy is there to be timed.
#[cfg(functions = "platform")]
macro_rules! no_choice {
    ($float:ty) => {
        impl Choice for $float {
            #[inline]
            fn max_given(self, other: Self) -> Self {
                self.max(other)
            }
            #[inline]
            fn min_given(self, other: Self) -> Self {
                self.min(other)
            }
        }
    };
}
#[cfg(functions = "platform")]
no_choice!(f32);
#[cfg(functions = "platform")]
no_choice!(f64);

/// Where Rust's own `max` and `min` are not asked; everywhere else they answer.
enum Special {
    DropFirst,
    DropSecond,
    Zeros,
    Plain,
}

#[inline]
fn zeros_or_nan(first_nan: bool, second_nan: bool, zeros: bool) -> Special {
    match (first_nan, second_nan, zeros) {
        (true, _, _) => Special::DropFirst,
        (_, true, _) => Special::DropSecond,
        (_, _, true) => Special::Zeros,
        _ => Special::Plain,
    }
}

/// The choice of docs/RULES.md, Floats, for ranking: a NaN counts as 7fc00000.
pub trait Ranked {
    fn ranked(self) -> f32;
}

impl Ranked for f32 {
    #[inline]
    fn ranked(self) -> f32 {
        if self.is_nan() {
            f32::from_bits(0x7fc0_0000)
        } else {
            self
        }
    }
}
