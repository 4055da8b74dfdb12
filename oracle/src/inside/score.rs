//! Child module of disk_sector/score.rs.
use super::super::candidates::inside::from_set;
use super::super::data::inside::data;
use super::Fit;
use shapes::{Disk, Fit9, Set};

pub(in crate::orientation::disk_sector) fn to_words(fit: Fit) -> Fit9 {
    [
        fit.theta1, fit.theta2, fit.width, fit.amp, fit.rms, fit.rel_rms, fit.corr, fit.edge_score, fit.objective,
    ]
}

pub(in crate::orientation::disk_sector) fn from_words(words: Fit9) -> Fit {
    let [theta1, theta2, width, amp, rms, rel_rms, corr, edge_score, objective] = words;
    Fit { theta1, theta2, width, amp, rms, rel_rms, corr, edge_score, objective }
}

/// `scalars` are theta0, theta1, width and edge.
pub fn score_pair_cached(disk: &Disk, scalars: [f32; 4], h0: &[f32], h1: &[f32]) -> Option<Fit9> {
    let [theta0, theta1, width, edge] = scalars;
    super::score_pair_cached(&data(disk), theta0, theta1, width, edge, h0, h1).map(to_words)
}

pub fn precompute_edge_alignments(disk: &Disk, set: &Set) -> (f32, [f32; 64]) {
    let mut sums = [0.0; 64];
    let total = super::precompute_edge_alignments(&data(disk), &from_set(set), &mut sums);
    (total, sums)
}

pub fn fit_is_better(a: Fit9, b: Fit9) -> bool {
    super::fit_is_better(from_words(a), from_words(b))
}

pub fn fit_std_errors(disk: &Disk, fit: Fit9) -> [f32; 2] {
    super::fit_std_errors(&data(disk), &from_words(fit))
}
