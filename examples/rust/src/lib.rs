//! A safe wrapper of `libjengubool.a`: the proved ring and disk fits of the two axes of a chessboard corner.
//!
//! A call answers a typed fit, or a [`Refusal`] with its number and place. Nothing here panics or keeps state, and any
//! number of threads may call at once. Nothing allocates but [`Tables`], which is there with the feature `alloc`, a default
//! one. What the library promises is stated in `include/jengubool.h`; the items below say the same for Rust.
//!
//! The library expects the floating-point mode that a Rust program has anyway: rounding to nearest, subnormals on.
//! A NaN in an answer is some NaN. All other bits of an answer are the same on every machine.
//!
//! ```
//! let angles: [f32; 16] = core::array::from_fn(|i| i as f32 * core::f32::consts::FRAC_PI_8);
//! let samples = angles.map(|a| 128.0 + 60.0 * jengubool::sin(2.0 * a));
//! let fit = jengubool::fit_ring(&samples, &angles)?;
//! assert!(fit.amp > 50.0 && fit.theta1 < fit.theta2);
//!
//! let refusal = jengubool::fit_ring(&samples, &angles[..15]).unwrap_err();
//! assert_eq!(refusal.number, jengubool::Number::Length);
//! # Ok::<(), jengubool::Refusal>(())
//! ```
#![no_std]
#![deny(missing_docs)]
#![deny(unsafe_op_in_unsafe_fn)]

#[cfg(feature = "alloc")]
extern crate alloc;

use core::fmt;

mod lines;
mod raw;
#[cfg(feature = "alloc")]
mod tables;

pub use lines::{answer_line, RefusedLine, ANSWER_BYTES};
#[cfg(feature = "alloc")]
pub use tables::{Tables, MOST_TABLES};

/// Samples, and angles, that a ring has in [`fit_ring`] and in [`Tables`].
pub const RING_SAMPLES: usize = 16;

/// Samples, and angles, that a ring has in [`fit_ring24`].
pub const RING24_SAMPLES: usize = 24;

/// Pixels that a disk has at most. It has at least one.
pub const MOST_PIXELS: usize = 320;

/// Why a call was refused. The numbers are those of the frame lines; no line is refused by 6.
#[derive(Clone, Copy, Debug, PartialEq, Eq, Hash)]
#[non_exhaustive]
pub enum Number {
    /// 1: a ring slice is not [`RING_SAMPLES`] long, or not [`RING24_SAMPLES`] for [`fit_ring24`]; disk slices differ in
    /// length; or the answer buffer of a line is under [`ANSWER_BYTES`].
    Length,
    /// 2: a disk has no pixel, or more than [`MOST_PIXELS`].
    PixelCount,
    /// 3: a value is not finite. The place is its index.
    NotFinite,
    /// 4: the disk search found no fit. The place is the number of its trials.
    NothingFound,
    /// 5: a line is malformed.
    Malformed,
    /// 6: [`Tables`] have no room for another table.
    Full,
    /// A number that this version of the crate does not know.
    Unknown(u16),
}

impl Number {
    /// The reason that a number stands for.
    pub const fn from_code(code: u16) -> Self {
        match code {
            1 => Self::Length,
            2 => Self::PixelCount,
            3 => Self::NotFinite,
            4 => Self::NothingFound,
            5 => Self::Malformed,
            6 => Self::Full,
            other => Self::Unknown(other),
        }
    }

    /// The number itself, as the frame lines write it.
    pub const fn code(self) -> u16 {
        match self {
            Self::Length => 1,
            Self::PixelCount => 2,
            Self::NotFinite => 3,
            Self::NothingFound => 4,
            Self::Malformed => 5,
            Self::Full => 6,
            Self::Unknown(code) => code,
        }
    }

    const fn reason(self) -> &'static str {
        match self {
            Self::Length => "a slice has the wrong length",
            Self::PixelCount => "there are no pixels, or too many",
            Self::NotFinite => "a value is not finite",
            Self::NothingFound => "the disk search found no fit",
            Self::Malformed => "the line is malformed",
            Self::Full => "three tables are held",
            Self::Unknown(_) => "the reason is not known here",
        }
    }
}

/// A refused call: why, and where. A refused call has no fit.
///
/// Which calls are refused, with which number and place, is proved to follow from the input alone.
#[derive(Clone, Copy, Debug, PartialEq, Eq, Hash)]
pub struct Refusal {
    /// Why the call was refused.
    pub number: Number,
    /// Where: for [`Number::NotFinite`] the index of the first such value, for [`Number::NothingFound`] the number of
    /// trials, else 0.
    ///
    /// A ring's values count samples (0 to 15), then angles (16 to 31); with 24 samples they are 0 to 23, and the angles
    /// 24 to 47. Of a table that is to be stored they are its angles, 0 to 15. A disk's count `val_energy`, `base0`, `base1`
    /// (0 to 2), then `xs`, `ys`, `vals_centered`, `grad_angles`, `grad_weights`.
    pub place: u16,
}

impl Refusal {
    /// The refusal in a code that is not 0, as the library returns it: the number times 65536, and the place.
    const fn from_code(code: u32) -> Self {
        Self { number: Number::from_code((code >> 16) as u16), place: code as u16 }
    }
}

impl fmt::Display for Refusal {
    fn fmt(&self, f: &mut fmt::Formatter<'_>) -> fmt::Result {
        write!(f, "refused: {} (number {}, place {})", self.number.reason(), self.number.code(), self.place)
    }
}

impl core::error::Error for Refusal {}

/// The fit of a ring, of 16 samples or of 24: two axes through the corner, in radians.
///
/// The model is `mean + amp * tanh(4 sin(phi - theta1)) * tanh(4 sin(phi - theta2))` at the angle `phi`.
#[derive(Clone, Copy, Debug, PartialEq)]
pub struct RingFit {
    /// Amplitude: not below 0, or NaN after an overflow. 0 for a ring without contrast.
    pub amp: f32,
    /// First axis: `0 <= theta1 < PI`.
    pub theta1: f32,
    /// Second axis: `theta1 <= theta2 < 2 PI`.
    pub theta2: f32,
    /// Standard error of `theta1`, from 0 to PI.
    pub error1: f32,
    /// Standard error of `theta2`, from 0 to PI.
    pub error2: f32,
    /// Root mean square of the residual.
    pub rms: f32,
    /// Brightness about which the fitted edges lie, the model's `mu`: that of the start that is answered. For a ring without
    /// contrast its seed's, which is the mean of the samples where there was one start. Infinite or NaN after an overflow; `rms` is then not
    /// finite either.
    pub mean: f32,
    /// Starts made: 1 or 2.
    pub starts: u32,
    /// Updates of the first start: 0 to 6.
    pub first_updates: u32,
    /// Updates of the second start: 0 to 6, and 0 where there was none.
    pub second_updates: u32,
    /// Whether the errors are known: estimated, with nothing on the way that is not finite. A known error of PI is an
    /// estimate of PI or more. Where they are not known, no estimate stands in the two, be it PI or 0.
    pub errors_known: bool,
}

impl RingFit {
    /// Both standard errors, where they are known.
    pub fn errors(&self) -> Option<[f32; 2]> {
        self.errors_known.then_some([self.error1, self.error2])
    }
}

/// Fits the two axes to 16 samples at 16 angles (radians).
///
/// # Errors
///
/// In this order: [`Number::Length`] at place 0 if a slice is not [`RING_SAMPLES`] long; [`Number::NotFinite`] at the
/// index of the first value that is NaN or infinite, samples before angles. Every other ring is answered.
pub fn fit_ring(samples: &[f32], angles: &[f32]) -> Result<RingFit, Refusal> {
    fit_of(RING_SAMPLES, samples, angles)
}

/// Fits the two axes to 24 samples at 24 angles (radians): as [`fit_ring`] in every word, with 24 in the place of 16.
///
/// # Errors
///
/// In this order: [`Number::Length`] at place 0 if a slice is not [`RING24_SAMPLES`] long; [`Number::NotFinite`] at the
/// index of the first value that is NaN or infinite, samples before angles. Every other ring is answered.
pub fn fit_ring24(samples: &[f32], angles: &[f32]) -> Result<RingFit, Refusal> {
    fit_of(RING24_SAMPLES, samples, angles)
}

/// The library's call takes rings of 16 and of 24: the number of samples must be looked at here.
fn fit_of(n: usize, samples: &[f32], angles: &[f32]) -> Result<RingFit, Refusal> {
    if samples.len() != n {
        return Err(Refusal { number: Number::Length, place: 0 });
    }
    let mut fit = [0.0; 7];
    let mut counts = [0; 4];
    match raw::ring_record(samples, angles, &mut fit, &mut counts) {
        0 => Ok(ring_fit(fit, counts)),
        code => Err(Refusal::from_code(code)),
    }
}

fn ring_fit(fit: [f32; 7], counts: [u32; 4]) -> RingFit {
    let [amp, theta1, theta2, error1, error2, rms, mean] = fit;
    let [starts, first_updates, second_updates, known] = counts;
    RingFit {
        amp,
        theta1,
        theta2,
        error1,
        error2,
        rms,
        mean,
        starts,
        first_updates,
        second_updates,
        errors_known: known != 0,
    }
}

/// The pixels of a disk around a corner at (0, 0), lent to [`fit_disk`]. Element `i` of each slice belongs to pixel `i`.
///
/// The fit takes all of it as it comes and checks no field against another, but for the lengths.
#[derive(Clone, Copy, Debug, PartialEq)]
pub struct Disk<'a> {
    /// Sum of the squares of `vals_centered`.
    pub val_energy: f32,
    /// First guess of one axis (radians), such as a ring fit's `theta1`.
    pub base0: f32,
    /// First guess of the other axis.
    pub base1: f32,
    /// Places of the pixels, across.
    pub xs: &'a [f32],
    /// Places of the pixels, down.
    pub ys: &'a [f32],
    /// Brightness less the mean of all.
    pub vals_centered: &'a [f32],
    /// Direction of the edge at a pixel: that of the gradient, turned by PI/2 (radians, modulo PI).
    pub grad_angles: &'a [f32],
    /// Size of the gradient.
    pub grad_weights: &'a [f32],
}

/// The fit of a disk: two axes through the corner, in radians.
///
/// The model is `mu + amp * tanh(d1 / width) * tanh(d2 / width)`, where `d1` and `d2` are the distances of a pixel from
/// the two axes.
#[derive(Clone, Copy, Debug, PartialEq)]
pub struct DiskFit {
    /// First axis: `0 <= theta1 < PI`.
    pub theta1: f32,
    /// Second axis: `theta1 <= theta2 < 2 PI`.
    pub theta2: f32,
    /// Width of the edges: 0.35, 0.7, 1.4 or 2.8.
    pub width: f32,
    /// Amplitude: not below 0, or NaN after an overflow.
    pub amp: f32,
    /// Root mean square of the residual.
    pub rms: f32,
    /// `rms` over the amplitude, or over 1 where that is less.
    pub rel_rms: f32,
    /// How well model and pixels correlate: 1 is perfect.
    pub corr: f32,
    /// How well the gradients lie along both axes.
    pub edge_score: f32,
    /// What the search made least: `rel_rms - 1.25 * edge_score`.
    pub objective: f32,
    /// Standard error of `theta1`, from 0 to PI.
    pub error1: f32,
    /// Standard error of `theta2`, from 0 to PI.
    pub error2: f32,
    /// Pairs of axes that were tried: at most 144.
    pub trials: u32,
    /// Whether the errors are known: estimated, with nothing on the way that is not finite. A known error of PI is an
    /// estimate of PI or more. Where they are not known, no estimate stands in the two, be it PI or 0.
    pub errors_known: bool,
}

impl DiskFit {
    /// Both standard errors, where they are known.
    pub fn errors(&self) -> Option<[f32; 2]> {
        self.errors_known.then_some([self.error1, self.error2])
    }
}

/// Fits the two axes to the pixels of a disk.
///
/// # Errors
///
/// In this order: [`Number::PixelCount`] at place 0 if `xs` is empty or has more than [`MOST_PIXELS`] elements;
/// [`Number::Length`] at place 0 if another slice is not as long as `xs`; [`Number::NotFinite`] at the index of the first
/// value that is NaN or infinite, counted as [`Refusal::place`] says; [`Number::NothingFound`] if the search finds no fit,
/// as for a disk without contrast, with the number of its trials.
pub fn fit_disk(disk: &Disk<'_>) -> Result<DiskFit, Refusal> {
    let mut fit = [0.0; 11];
    let mut counts = [0; 2];
    match raw::fit_disk(disk, &mut fit, &mut counts) {
        0 => Ok(disk_fit(fit, counts)),
        code => Err(Refusal::from_code(code)),
    }
}

fn disk_fit(fit: [f32; 11], counts: [u32; 2]) -> DiskFit {
    let [theta1, theta2, width, amp, rms, rel_rms, corr, edge_score, objective, error1, error2] = fit;
    let [trials, known] = counts;
    let errors_known = known != 0;
    DiskFit {
        theta1,
        theta2,
        width,
        amp,
        rms,
        rel_rms,
        corr,
        edge_score,
        objective,
        error1,
        error2,
        trials,
        errors_known,
    }
}

/// Sine of `x` radians, within -1 to 1 and odd to the bit. Within 2^-24 of the true value for `|x| <= 64`; beyond, it is
/// the sine of the exact remainder of `x` by the `f32` next to 2 PI. NaN for NaN and for an infinity.
pub fn sin(x: f32) -> f32 {
    raw::sin(x)
}

/// Cosine of `x` radians, within -1 to 1 and even to the bit. Accuracy and NaN as for [`sin`].
pub fn cos(x: f32) -> f32 {
    raw::cos(x)
}

/// Hyperbolic tangent of `x`: within -1 to 1, odd to the bit, monotone, and within 2^-23.9 of the true value.
/// 1 and -1 for the infinities. NaN for NaN.
pub fn tanh(x: f32) -> f32 {
    raw::tanh(x)
}

/// e to the `x`. Up to 0: within 0 to 1, monotone, relative error at most 2^-23.6, and +0 below about -87.33654. Above 0:
/// `1 / exp(-x)`, infinite from about 87.33655 on. NaN for NaN.
pub fn exp(x: f32) -> f32 {
    raw::exp(x)
}

/// The angle of the point (`x`, `y`), from -PI to PI and within 2^-22 of the true value. `y` comes first, as in
/// `f32::atan2`; zeros and infinities count as there. NaN if either is NaN.
pub fn atan2(y: f32, x: f32) -> f32 {
    raw::atan2(y, x)
}

/// Square root, correctly rounded. NaN for NaN and for every `x` below 0; -0 for -0.
pub fn sqrt(x: f32) -> f32 {
    raw::sqrt(x)
}

/// The `f32` nearest to `x`, ties to even: the result of `x as f32`. NaN for NaN.
pub fn narrow(x: f64) -> f32 {
    raw::narrow(x)
}
