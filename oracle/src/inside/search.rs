//! Child module of disk_sector/search.rs.
use super::super::candidates::inside::to_scored;
use super::super::data::inside::data;
use super::super::score::inside::{from_words, to_words};
use super::*;
use crate::given::Ranked as _;
use shapes::{Disk, Fit9, Pool, Scored};

pub fn best_disk_fit(disk: &Disk, base0: f32, base1: f32) -> Option<Fit9> {
    super::best_disk_fit(&data(disk), base0, base1).map(to_words)
}

/// Equal but for i and j: for counting.
pub(super) fn tied(a: &PairScore, b: &PairScore) -> bool {
    a.forced == b.forced && a.edge_score.ranked().total_cmp(&b.edge_score.ranked()).is_eq()
}

/// The ranking stands in the middle of `best_disk_fit` and is cut from there.
pub fn rank(pool: &Pool) -> Pool {
    let n_pairs = pool.count;
    let mut pair_pool: [PairScore; MAX_PAIRS] = [PairScore::default(); MAX_PAIRS];
    for (to, from) in pair_pool.iter_mut().zip(&pool.pairs[..n_pairs]) {
        *to = PairScore { i: from.i, j: from.j, edge_score: from.edge_score, forced: from.forced, _pad: [0; 7] };
    }
    //= cut ranking
    let mut pairs = [Scored::default(); shapes::PAIRS];
    for (to, from) in pairs.iter_mut().zip(&pair_pool[..k]) {
        *to = to_scored(from);
    }
    Pool { count: k, pairs }
}

pub fn insert_top(leaders: [Option<Fit9>; 2], fit: Fit9) -> [Option<Fit9>; 2] {
    let mut top = leaders.map(|leader| leader.map(from_words));
    super::insert_top(&mut top, from_words(fit));
    top.map(|leader| leader.map(to_words))
}

pub fn refine_fit_cached(disk: &Disk, fit: Fit9) -> Fit9 {
    to_words(super::refine_fit_cached(&data(disk), from_words(fit)))
}

pub fn edge_weight_total(disk: &Disk) -> f32 {
    super::edge_weight_total(&data(disk))
}

pub fn build_axis_rows(disk: &Disk, base: f32, offsets: &[f32; 3], width: f32) -> ([f32; 3], [[f32; 320]; 3]) {
    let mut rows = [[0.0; MAX_TANH_PIXELS]; 3];
    let mut edges = [0.0; 3];
    super::build_axis_rows(&data(disk), base, offsets, width, &mut rows, &mut edges);
    (edges, rows)
}
