//! What the copies of the text call by C names: Rust's own square root, floor, ceiling and rem_euclid, and the
//! counters of the `counted` copy.

use std::cell::RefCell;

macro_rules! from_std {
    ($($name:ident $method:ident ( $($argument:ident),* )),* $(,)?) => {
        $(#[no_mangle]
        pub extern "C" fn $name(x: f32 $(, $argument: f32)*) -> f32 {
            x.$method($($argument),*)
        })*
    };
}

from_std! {
    oracle_sqrt sqrt(), oracle_floor floor(), oracle_ceil ceil(), oracle_rem_euclid rem_euclid(divisor),
}

/// What axis_std_errors was given.
#[derive(Clone, Copy, Debug, PartialEq)]
pub struct Given {
    pub jtj: [[f32; 4]; 4],
    pub ssr: f32,
    pub n: usize,
}

/// What one call of the `counted` copy did.
#[derive(Clone, Copy, Default, Debug, PartialEq)]
pub struct Counts {
    pub starts: u32,
    /// Updates of the first and the second start.
    pub updates: [u32; 2],
    pub degenerate: [bool; 2],
    pub failed_elimination: bool,
    pub suspicious: bool,
    pub second_answered: bool,
    pub trials: u32,
    /// Neighbours in rank of equal force and score, which i or j puts in order.
    pub ties_kept: u32,
    /// Pairs left out that only i or j puts behind the last one kept.
    pub ties_at_end: u32,
    pub nan_scores: u32,
    pub searched: bool,
    pub leaders: u32,
    pub theta2: u32,
    pub moved: u32,
    pub eliminations: u32,
    /// Of all eliminations of the call: entries as large as the best so far, rows exchanged, factors of 0 skipped.
    pub equal_sizes: u32,
    pub exchanges: u32,
    pub skipped: u32,
    /// Eliminations that stopped, by their pivot: not finite, too small.
    pub stopped: [[u32; 4]; 2],
    /// The events of eliminations in their order, as one number.
    pub way: u64,
    /// Of the first and the second start; a disk has the first place.
    pub errors: [Option<Given>; 2],
    /// The mu of the first and the second start.
    pub means: [Option<f32>; 2],
    /// Whether seed models were asked in the place of the grid.
    pub cached: bool,
    /// The axes of the seed of the second start.
    pub seed: Option<[f32; 2]>,
}

impl Counts {
    /// The mu of the start that is answered.
    pub fn mean(&self) -> f32 {
        self.means[usize::from(self.second_answered)].expect("a start has its mu")
    }
}

thread_local! {
    static COUNTS: RefCell<Counts> = RefCell::new(Counts::default());
}

/// Runs `work` with fresh counters and hands back its result with what was counted.
pub fn counted<T>(work: impl FnOnce() -> T) -> (T, Counts) {
    COUNTS.with(|counts| *counts.borrow_mut() = Counts::default());
    let result = work();
    (result, COUNTS.with(|counts| *counts.borrow()))
}

#[no_mangle]
pub extern "C" fn oracle_event(event: u32) {
    COUNTS.with(|counts| note(&mut counts.borrow_mut(), event));
}

#[no_mangle]
pub extern "C" fn oracle_errors(jtj: &[[f32; 4]; 4], ssr: f32, n: usize) {
    COUNTS.with(|counts| {
        let mut counts = counts.borrow_mut();
        let start = (counts.starts as usize).saturating_sub(1);
        counts.errors[start] = Some(Given { jtj: *jtj, ssr, n });
    });
}

#[no_mangle]
pub extern "C" fn oracle_mean(mu: f32) {
    COUNTS.with(|counts| {
        let mut counts = counts.borrow_mut();
        let start = counts.starts as usize - 1;
        counts.means[start] = Some(mu);
    });
}

#[no_mangle]
pub extern "C" fn oracle_seed(theta1: f32, theta2: f32) {
    COUNTS.with(|counts| counts.borrow_mut().seed = Some([theta1, theta2]));
}

fn note(counts: &mut Counts, event: u32) {
    // An update or a degenerate answer belongs to the start under way; there are never more than two.
    let start = (counts.starts as usize).wrapping_sub(1);
    if (14..=31).contains(&event) {
        counts.way = counts.way.wrapping_mul(37).wrapping_add(u64::from(event));
    }
    match event {
        0 => counts.starts += 1,
        1 => counts.updates[start] += 1,
        2 => counts.degenerate[start] = true,
        3 => counts.failed_elimination = true,
        4 => counts.suspicious = true,
        5 => counts.second_answered = true,
        6 => counts.trials += 1,
        7 => counts.ties_kept += 1,
        8 => counts.nan_scores += 1,
        9 => counts.searched = true,
        10 => counts.leaders += 1,
        11 => counts.theta2 += 1,
        12 => counts.moved += 1,
        13 => counts.ties_at_end += 1,
        14 => counts.equal_sizes += 1,
        15 => counts.eliminations += 1,
        16..=19 => counts.exchanges += 1,
        20..=23 => counts.skipped += 1,
        24..=27 => counts.stopped[0][event as usize - 24] += 1,
        28..=31 => counts.stopped[1][event as usize - 28] += 1,
        32 => counts.cached = true,
        other => unreachable!("event {other}"),
    }
}
