//! Root of one copy of the Rust text. A copy with our functions is `no_std` and depends on no crate that is not:
//! otherwise the methods of std's `f32` would be found before those of `given`, without a word from the compiler.
#![cfg_attr(functions = "ours", no_std)]

// `sort_by` of slices lives in alloc.
extern crate alloc;

pub mod count;
pub mod given;
pub mod orientation;
#[cfg(functions = "ours")]
mod five;
#[cfg(functions = "ours")]
pub mod ours;

#[cfg(points = "16")]
pub use orientation::disk_sector::inside as disk;
pub use orientation::ring_fit::inside as ring;

/// How many samples this copy takes.
#[cfg(points = "16")]
pub const POINTS: usize = 16;
#[cfg(points = "24")]
pub const POINTS: usize = 24;
pub type Ring = shapes::Ring<POINTS>;
