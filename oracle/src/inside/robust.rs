//! Child module of ring_fit/robust.rs.
use super::super::inside::{from_words, to_words};
use super::super::seed::inside::from_words as seed;
use crate::Ring;
use shapes::{Fit6, Seed5};

pub fn fit_ring(ring: &Ring) -> Fit6 {
    to_words(super::fit_ring(&ring.samples, &ring.angles))
}

pub fn fit_is_suspicious(fit: Fit6) -> bool {
    super::fit_is_suspicious(&from_words(fit))
}

pub fn relative_rms(fit: Fit6) -> f32 {
    super::relative_rms(&from_words(fit))
}

pub fn robust_grid_fit(ring: &Ring, mean: f32, variance: f32) -> Option<Fit6> {
    super::robust_grid_fit(&ring.samples, &ring.angles, mean, variance).map(to_words)
}

pub fn refine_seed_candidates(ring: &Ring, variance: f32, held: Option<Seed5>) -> Option<Fit6> {
    super::refine_seed_candidates(&ring.samples, &ring.angles, variance, [held.map(seed)]).map(to_words)
}
