//! Child module of disk_sector/candidates.rs.
use super::super::data::inside::data;
use super::*;
use crate::given::Float as _;
use shapes::{Disk, Pair, Pool, Scored, Set};

pub(in crate::orientation::disk_sector) fn from_set(set: &Set) -> CandidateSet {
    CandidateSet { n: set.count, angles: set.angles }
}

fn to_set(candidates: CandidateSet) -> Set {
    Set { count: candidates.n, angles: candidates.angles }
}

pub(in crate::orientation::disk_sector) fn to_scored(pair: &PairScore) -> Scored {
    Scored { i: pair.i, j: pair.j, edge_score: pair.edge_score, forced: pair.forced }
}

/// The bin of one angle: the expression stands inside the text's loop over pixels and is cut from there.
pub fn bin(angle: f32) -> usize {
    struct OnePixel {
        grad_angles: [f32; 1],
    }
    let data = OnePixel { grad_angles: [angle] };
    let i = 0;
    //= cut bin
    idx
}

pub fn push_unique(set: &Set, angle: f32, min_sep: f32) -> Set {
    let mut candidates = from_set(set);
    candidates.push_unique(angle, min_sep);
    to_set(candidates)
}

pub fn histogram_candidates(disk: &Disk, base0: f32, base1: f32) -> Set {
    to_set(super::histogram_candidates(&data(disk), base0, base1))
}

pub fn forced_seed_pair(set: &Set, base0: f32, base1: f32) -> Pair {
    super::forced_seed_pair(&from_set(set), base0, base1)
}

pub fn forced_histogram_pair(set: &Set, edge_sums: &[f32; 64]) -> Pair {
    super::forced_histogram_pair(&from_set(set), edge_sums)
}

pub fn closest_candidate(set: &Set, target: f32) -> Option<usize> {
    super::closest_candidate(&from_set(set), target)
}

pub fn matches_pair(forced: Pair, i: usize, j: usize) -> bool {
    super::matches_pair(forced, i, j)
}

/// At most 24 angles, so at most 276 pairs.
pub fn build_pair_pool(set: &Set, edge_sums: &[f32; 64], total: f32, forced: [Pair; 2]) -> Pool {
    let mut pool = [PairScore::default(); MAX_PAIRS];
    let count = super::build_pair_pool(&from_set(set), edge_sums, total, forced[0], forced[1], &mut pool);
    let mut pairs = [Scored::default(); shapes::PAIRS];
    for (to, from) in pairs.iter_mut().zip(&pool[..count]) {
        *to = to_scored(from);
    }
    Pool { count, pairs }
}

pub fn combine_edge_pair(a: f32, b: f32, total: f32) -> f32 {
    super::combine_edge_pair(a, b, total)
}
