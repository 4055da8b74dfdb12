//! Child module of ring_fit/seed.rs.
use super::SeedCandidate;
use crate::{Ring, POINTS};
use shapes::Seed5;

pub(crate) fn to_words(seed: SeedCandidate) -> Seed5 {
    [seed.theta1, seed.theta2, seed.mu, seed.amp, seed.rms]
}

pub(crate) fn from_words(words: Seed5) -> SeedCandidate {
    let [theta1, theta2, mu, amp, rms] = words;
    SeedCandidate { theta1, theta2, mu, amp, rms }
}

pub fn second_harmonic(ring: &Ring, mean: f32) -> (f32, f32) {
    super::second_harmonic(&ring.samples, &ring.angles, mean)
}

pub fn valid_seed_pair(theta1: f32, theta2: f32) -> bool {
    super::valid_seed_pair(theta1, theta2)
}

pub fn line_separation(theta1: f32, theta2: f32) -> f32 {
    super::line_separation(theta1, theta2)
}

/// `rows` are the centred values, h1 and h2; `scalars` their sum of squares, mean, theta1 and theta2.
pub fn score_seed_pair(rows: &[[f32; POINTS]; 3], scalars: [f32; 4]) -> Option<Seed5> {
    let [sum_of_squares, mean, theta1, theta2] = scalars;
    super::score_seed_pair(&rows[0], sum_of_squares, mean, &rows[1], &rows[2], theta1, theta2).map(to_words)
}

pub fn insert_seed_candidate(held: Option<Seed5>, candidate: Seed5) -> Option<Seed5> {
    let mut top = [held.map(from_words)];
    super::insert_seed_candidate(&mut top, from_words(candidate));
    top[0].map(to_words)
}

/// What the harness sets in the place of the text's own ring.
#[cfg(feature = "std")]
pub use set::{is_set_ring, models_held, set_ring};
#[cfg(feature = "std")]
pub(super) use set::{angles, models};

#[cfg(feature = "std")]
mod set {
    use super::super::{build_canonical_seed_models, is_canonical_ring_phi, SeedModel};
    use crate::POINTS;
    use alloc::vec::Vec;
    use core::cell::UnsafeCell;

    struct Held(UnsafeCell<([f32; POINTS], Vec<SeedModel>)>);

    // SAFETY: one thread alone sets a ring and fits with it.
    unsafe impl Sync for Held {}

    static HELD: Held = Held(UnsafeCell::new(([f32::NAN; POINTS], Vec::new())));

    /// Builds its models too: the text builds those of its own ring once.
    pub fn set_ring(angles: &[f32; POINTS]) {
        // SAFETY: nothing else has the cell, and no one keeps a model from one call to the next.
        unsafe { (*HELD.0.get()).0 = *angles };
        let models = build_canonical_seed_models();
        unsafe { (*HELD.0.get()).1 = models };
    }

    pub fn is_set_ring(angles: &[f32; POINTS]) -> bool {
        is_canonical_ring_phi(angles)
    }

    pub fn models_held() -> usize {
        models().len()
    }

    pub(crate) fn angles() -> [f32; POINTS] {
        // SAFETY: as above.
        unsafe { (*HELD.0.get()).0 }
    }

    pub(crate) fn models() -> &'static [SeedModel] {
        // SAFETY: as above.
        unsafe { (*HELD.0.get()).1.as_slice() }
    }
}

/// `rows` are the centred values and those of the model; `scalars` their sum of squares, mean, theta1, theta2, q_mean, denom.
#[cfg(feature = "std")]
pub fn score_cached_seed_model(rows: &[[f32; POINTS]; 2], scalars: [f32; 6]) -> Option<Seed5> {
    let [sum_of_squares, mean, theta1, theta2, q_mean, denom] = scalars;
    let model = super::SeedModel { theta1, theta2, q_mean, q_centered: rows[1], denom };
    super::score_cached_seed_model(&rows[0], sum_of_squares, mean, &model).map(to_words)
}
