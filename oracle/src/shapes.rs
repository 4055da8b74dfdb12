//! Records that the harness and the copies of the text exchange. The text's own types stay private to it.
#![no_std]

pub const PIXELS: usize = 320;
pub const ANGLES: usize = 64;
pub const PAIRED_ANGLES: usize = 24;
pub const PAIRS: usize = 276;
/// Tables of seed models that are held side by side.
pub const TABLES: usize = 3;

/// Ring fit: amp, theta1, theta2, both errors, rms.
pub type Fit6 = [f32; 6];
/// Seed: theta1, theta2, mu, amp, rms.
pub type Seed5 = [f32; 5];
/// Disk fit: theta1, theta2, width, amp, rms, rel_rms, corr, edge_score, objective.
pub type Fit9 = [f32; 9];
pub type Pair = Option<(usize, usize)>;
/// The angles of a ring of 16 points.
pub type Angles = [f32; 16];

/// Of 16 points, or of 24.
#[derive(Clone)]
pub struct Ring<const N: usize> {
    pub samples: [f32; N],
    pub angles: [f32; N],
}

#[derive(Clone)]
pub struct Disk {
    pub count: usize,
    pub val_energy: f32,
    /// xs, ys, vals_centered, grad_angles, grad_weights.
    pub runs: [[f32; PIXELS]; 5],
}

#[derive(Clone)]
pub struct Set {
    pub count: usize,
    pub angles: [f32; ANGLES],
}

#[derive(Clone, Copy, Default)]
pub struct Scored {
    pub i: u16,
    pub j: u16,
    pub edge_score: f32,
    pub forced: bool,
}

#[derive(Clone)]
pub struct Pool {
    pub count: usize,
    pub pairs: [Scored; PAIRS],
}
