//! Child module of ring_fit/solver.rs.
use super::super::inside::to_words;
use crate::Ring;
use shapes::Fit6;

pub fn solve_4x4(matrix: &[[f32; 4]; 4], right: &[f32; 4]) -> Option<[f32; 4]> {
    super::solve_4x4(matrix, right)
}

pub fn axis_std_errors(matrix: &[[f32; 4]; 4], ssr: f32, n: usize) -> [f32; 2] {
    super::axis_std_errors(matrix, ssr, n)
}

pub fn degenerate_fit(variance: f32) -> Fit6 {
    to_words(super::degenerate_fit(variance))
}

pub fn canonicalize_tracking_swap(theta1: f32, theta2: f32, amp: f32) -> (f32, f32, f32, bool) {
    super::canonicalize_tracking_swap(theta1, theta2, amp)
}

pub fn wrap_to_tau(x: f32) -> f32 {
    super::wrap_to_tau(x)
}

/// `seed` is theta1, theta2, amp, mu, variance: the Rust's order of arguments.
pub fn fit_with_seed(ring: &Ring, seed: [f32; 5]) -> Fit6 {
    let [theta1, theta2, amp, mu, variance] = seed;
    to_words(super::fit_with_seed(&ring.samples, &ring.angles, theta1, theta2, amp, mu, variance))
}
