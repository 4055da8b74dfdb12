//! Answers that carry counts come from a `counted` copy, after a comparison with its `plain` one.

use crate::wire::to_bits;
use shapes::{Angles, Disk, Fit6, Fit9, Ring, Seed5};
use support::Counts;

/// Stops the program where counting changed a result: then no count can be trusted.
fn agree(function: &str, plain: Option<&[f32]>, counted: Option<&[f32]>) {
    let bits = |fit: Option<&[f32]>| fit.map(|words| words.iter().map(|&x| to_bits(x)).collect::<Vec<_>>());
    if bits(plain) != bits(counted) {
        eprintln!("oracle: the counted copy of {function} answers {counted:?}, the plain copy {plain:?}");
        std::process::exit(1);
    }
}

pub fn fit_ring(ring: &Ring<16>) -> (Fit6, Counts) {
    let (fit, counts) = support::counted(|| counted::ring::robust::fit_ring(ring));
    agree("fit_ring", Some(&plain::ring::robust::fit_ring(ring)), Some(&fit));
    (fit, counts)
}

pub fn fit_ring24(ring: &Ring<24>) -> (Fit6, Counts) {
    let (fit, counts) = support::counted(|| counted24::ring::robust::fit_ring(ring));
    agree("fit_ring for 24 points", Some(&plain24::ring::robust::fit_ring(ring)), Some(&fit));
    (fit, counts)
}

/// Sets the first table that the text takes the angles for; where there is none, a ring that it takes nothing for.
fn set_first(tables: &[Angles], angles: &Angles, set: fn(&Angles), is_set: fn(&Angles) -> bool) -> Option<usize> {
    let found = tables.iter().position(|table| {
        set(table);
        is_set(angles)
    });
    if found.is_none() {
        set(&[f32::NAN; 16]);
    }
    found
}

/// The fit, and the table that stood in the place of the text's own ring.
pub fn fit_with_tables(tables: &[Angles], ring: &Ring<16>) -> (Fit6, Counts, Option<usize>) {
    use counted_std::ring::seed as counted_seed;
    use plain_std::ring::seed as plain_seed;
    let index = set_first(tables, &ring.angles, counted_seed::set_ring, counted_seed::is_set_ring);
    let same = set_first(tables, &ring.angles, plain_seed::set_ring, plain_seed::is_set_ring);
    let (fit, counts) = support::counted(|| counted_std::ring::robust::fit_ring(ring));
    agree("fit_ring with tables", Some(&plain_std::ring::robust::fit_ring(ring)), Some(&fit));
    if index.is_none() {
        let (direct, of_direct) = fit_ring(ring);
        agree("fit_ring without a table", Some(&direct), Some(&fit));
        let counted = |counts: &Counts| (counts.starts, counts.updates, counts.second_answered);
        stop_unless(counted(&counts) == counted(&of_direct), "without a table the counts are others", ring);
    }
    stop_unless(index == same && (index.is_some() || !counts.cached), "the copies take different tables", ring);
    (fit, counts, index)
}

fn stop_unless(good: bool, sentence: &str, ring: &Ring<16>) {
    if !good {
        eprintln!("oracle: {sentence}: angles {:?}, samples {:?}", ring.angles, ring.samples);
        std::process::exit(1);
    }
}

pub fn score_cached_seed_model(rows: &[[f32; 16]; 2], scalars: [f32; 6]) -> Option<Seed5> {
    let seed = plain_std::ring::seed::score_cached_seed_model(rows, scalars);
    let other = counted_std::ring::seed::score_cached_seed_model(rows, scalars);
    agree("score_cached_seed_model", seed.as_ref().map(|words| &words[..]), other.as_ref().map(|words| &words[..]));
    seed
}

pub fn solve_4x4(matrix: &[[f32; 4]; 4], right: &[f32; 4]) -> (Option<[f32; 4]>, Counts) {
    let (solution, counts) = support::counted(|| counted::ring::solver::solve_4x4(matrix, right));
    let expected = plain::ring::solver::solve_4x4(matrix, right);
    agree("solve_4x4", expected.as_ref().map(|words| &words[..]), solution.as_ref().map(|words| &words[..]));
    (solution, counts)
}

pub fn axis_std_errors(matrix: &[[f32; 4]; 4], ssr: f32, n: usize) -> ([f32; 2], Counts) {
    let (errors, counts) = support::counted(|| counted::ring::solver::axis_std_errors(matrix, ssr, n));
    agree("axis_std_errors", Some(&plain::ring::solver::axis_std_errors(matrix, ssr, n)), Some(&errors));
    if counts.eliminations > 0 {
        alike(matrix);
    }
    (errors, counts)
}

/// Stops the program where the text's two eliminations of one matrix go different ways: then our one would not do for both.
fn alike(matrix: &[[f32; 4]; 4]) {
    let ways = [[0.0, 0.0, 1.0, 0.0], [0.0, 0.0, 0.0, 1.0]].map(|right| {
        let (solution, counts) = support::counted(|| counted::ring::solver::solve_4x4(matrix, &right));
        (solution.is_some(), counts)
    });
    if ways[0] != ways[1] {
        eprintln!("oracle: two eliminations of {matrix:?} go different ways: {ways:?}");
        std::process::exit(1);
    }
}

pub fn fit_with_seed(ring: &Ring<16>, seed: [f32; 5]) -> (Fit6, Counts) {
    let (fit, counts) = support::counted(|| counted::ring::solver::fit_with_seed(ring, seed));
    agree("fit_with_seed", Some(&plain::ring::solver::fit_with_seed(ring, seed)), Some(&fit));
    (fit, counts)
}

pub fn robust_grid_fit(ring: &Ring<16>, mean: f32, variance: f32) -> (Option<Fit6>, Counts) {
    let (fit, counts) = support::counted(|| counted::ring::robust::robust_grid_fit(ring, mean, variance));
    let expected = plain::ring::robust::robust_grid_fit(ring, mean, variance);
    agree("robust_grid_fit", expected.as_ref().map(|words| &words[..]), fit.as_ref().map(|words| &words[..]));
    (fit, counts)
}

pub fn refine_seed_candidates(ring: &Ring<16>, variance: f32, seed: Option<Seed5>) -> (Option<Fit6>, Counts) {
    let (fit, counts) = support::counted(|| counted::ring::robust::refine_seed_candidates(ring, variance, seed));
    let expected = plain::ring::robust::refine_seed_candidates(ring, variance, seed);
    agree("refine_seed_candidates", expected.as_ref().map(|words| &words[..]), fit.as_ref().map(|words| &words[..]));
    (fit, counts)
}

pub fn best_disk_fit(disk: &Disk, base0: f32, base1: f32) -> (Option<Fit9>, Counts) {
    let (fit, counts) = support::counted(|| counted::disk::search::best_disk_fit(disk, base0, base1));
    let expected = plain::disk::search::best_disk_fit(disk, base0, base1);
    agree("best_disk_fit", expected.as_ref().map(|words| &words[..]), fit.as_ref().map(|words| &words[..]));
    (fit, counts)
}

pub fn fit_std_errors(disk: &Disk, fit: Fit9) -> ([f32; 2], Counts) {
    let (errors, counts) = support::counted(|| counted::disk::score::fit_std_errors(disk, fit));
    agree("fit_std_errors", Some(&plain::disk::score::fit_std_errors(disk, fit)), Some(&errors));
    (errors, counts)
}
