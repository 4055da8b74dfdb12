//! Stands for the text's orientation/mod.rs, which names files that are not in the text.
#[cfg(points = "16")]
pub mod disk_sector;
pub mod ring_fit;
