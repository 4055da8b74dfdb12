//! Stands for disk_sector/mod.rs, which is not in the text.
mod candidates;
mod data;
mod geometry;
mod score;
mod search;

/// What the harness calls.
pub mod inside {
    pub use super::candidates::inside as candidates;
    pub use super::geometry::inside as geometry;
    pub use super::score::inside as score;
    pub use super::search::inside as search;
}
