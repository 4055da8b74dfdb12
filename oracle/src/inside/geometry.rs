//! Child module of disk_sector/geometry.rs.

pub fn wrap_pi(a: f32) -> f32 {
    super::wrap_pi(a)
}

pub fn signed_line_delta(a: f32, b: f32) -> f32 {
    super::signed_line_delta(a, b)
}

pub fn line_delta(a: f32, b: f32) -> f32 {
    super::line_delta(a, b)
}

pub fn line_separation(a: f32, b: f32) -> f32 {
    super::line_separation(a, b)
}

pub fn pair_disagreement(a: [f32; 4]) -> f32 {
    super::pair_disagreement(a[0], a[1], a[2], a[3])
}

pub fn valid_pair(a: f32, b: f32) -> bool {
    super::valid_pair(a, b)
}
