//! The places where the `counted` copy tells what it does. The other copies do not call these.
//! The numbers are those of `Event` in support.rs.

extern "C" {
    fn oracle_event(event: u32);
    fn oracle_errors(jtj: &[[f32; 4]; 4], ssr: f32, n: usize);
    fn oracle_mean(mu: f32);
    fn oracle_seed(theta1: f32, theta2: f32);
}

macro_rules! events {
    ($($number:literal $name:ident),* $(,)?) => {
        $(pub fn $name() {
            // SAFETY: takes a number and keeps to its own memory.
            unsafe { oracle_event($number) }
        })*
    };
}

events! {
    0 start, 1 update, 2 degenerate, 3 failed_elimination, 4 suspicious, 5 second_answered,
    6 trial, 7 tie_kept, 8 nan_score, 9 search, 10 leader, 11 theta2, 12 moved, 13 tie_at_end,
    14 equal_sizes, 15 elimination, 32 cached,
}

fn of_row(first: u32, row: usize) {
    // SAFETY: as above.
    unsafe { oracle_event(first + row as u32) }
}

/// The pivot's row, which is not the diagonal's.
pub fn exchanged(row: usize) {
    of_row(16, row);
}

/// A row whose factor is 0.
pub fn skipped(row: usize) {
    of_row(20, row);
}

/// The elimination stopped at this pivot: 24 to 27 where it is not finite, 28 to 31 where it is too small.
pub fn stopped(pivot: usize, value: f32) {
    of_row(if value.is_finite() { 28 } else { 24 }, pivot);
}

/// What axis_std_errors is given.
pub fn errors(jtj: &[[f32; 4]; 4], ssr: f32, n: usize) {
    // SAFETY: copies the matrix, and keeps to its own memory.
    unsafe { oracle_errors(jtj, ssr, n) }
}

/// The mu of a start, where the text drops it, and where it answers a degenerate fit.
pub fn mean(mu: f32) {
    // SAFETY: takes a number and keeps to its own memory.
    unsafe { oracle_mean(mu) }
}

/// The axes of the seed that the grid, or a table of models, answered.
pub fn seed(theta1: f32, theta2: f32) {
    // SAFETY: takes numbers and keeps to its own memory.
    unsafe { oracle_seed(theta1, theta2) }
}
