//! The five elementary functions a second time, as plain Rust: each operator is one rounded IEEE operation, and Rust fuses
//! none. The oracle stands on these and not on the library, so that it builds on any machine, and so that function lines 20
//! to 24 compare two texts. The steps are those of docs/RULES.md, "The five functions", and crates/elementary/specs.

#[inline]
fn f(bits: u32) -> f32 {
    f32::from_bits(bits)
}

/// 1.5 * 2^23: adding and taking it off rounds to a whole number.
const ROUNDER: u32 = 0x4b40_0000;
/// The same with 127 added, so that the low byte of a sum is a float's exponent.
const BIASED: u32 = 0x4b40_007f;
const PI: u32 = 0x4049_0fdb;
const TAU: u32 = 0x40c9_0fdb;
/// The least argument whose exp is no subnormal.
const LEAST: u32 = 0xc2ae_ac4f;

fn unit(y: f32) -> f32 {
    let b = if y > 1.0 { 1.0 } else { y };
    if b < -1.0 { -1.0 } else { b }
}

/// 2 to the low byte of t's pattern, less 127.
fn scale(t: f32) -> f32 {
    f(t.to_bits() % 256 * 0x80_0000)
}

fn whole(x: f32) -> f32 {
    (x + f(ROUNDER)) - f(ROUNDER)
}

/// Sine and cosine.
fn sin_cos(angle: f32) -> (f32, f32) {
    let x = if angle > 64.0 || angle < -64.0 { angle % f(TAU) } else { angle };
    let k = whole(x * f(0x3f22_f983));
    let h = x - k * f(0x3fc9_0fc0);
    let g = k * f(0x3655_1100);
    let r = h - g;
    let l = (g - (h - r)) + k * f(0x2c34_611a);
    let z = r * r;
    let sine = r - ((r * z) * (f(0x3e2a_aaa3) + z * (f(0xbc08_83a6) + z * f(0x394c_a3e5))) + l);
    let y = 0.5 * z;
    let w = 1.0 - y;
    let tail = (z * z) * (f(0x3d2a_aaa5) + z * (f(0xbab6_063b) + z * f(0x37cc_fe13))) + r * l;
    let cosine = w + (((1.0 - w) - y) + tail);
    let m = whole(k * 0.5);
    let e = (m + m) - k;
    let n = whole(m * 0.5);
    let p = m - (n + n);
    let a = (1.0 - (p * p + p * p)) - e * e;
    (unit(a * sine - e * cosine), unit(a * cosine + e * sine))
}

pub fn sin(x: f32) -> f32 {
    sin_cos(x).0
}

pub fn cos(x: f32) -> f32 {
    sin_cos(x).1
}

fn exp_neg(x: f32) -> f32 {
    let z = if x < f(LEAST) { f(LEAST) } else { x };
    let t = z * f(0x3fb8_aa3b) + f(BIASED);
    let u = if t > f(ROUNDER) { t } else { f(ROUNDER) };
    let k = t - f(BIASED);
    let h = z - k * f(0x3f31_7200);
    let l = k * f(0x35bf_be8e);
    let r = h - l;
    let e = f(0x3eff_fffe) + r * (f(0x3e2a_aa48) + r * (f(0x3d2a_ac7c) + r * (f(0x3c09_1d81) + r * f(0x3ab5_112b))));
    let p = 1.0 + (h + ((r * r) * e - l));
    let y = p * scale(u);
    let v = if y > 1.0 { 1.0 } else { y };
    let w = if v < 0.0 { 0.0 } else { v };
    if x < f(LEAST) { 0.0 } else { w }
}

pub fn exp(x: f32) -> f32 {
    if x > 0.0 { 1.0 / exp_neg(-x) } else { exp_neg(x) }
}

pub fn tanh(x: f32) -> f32 {
    let b = if x > 9.25 { 9.25 } else { x };
    let a = if b < -9.25 { -9.25 } else { b };
    let t = x * 2.75 + f(BIASED);
    let u = if t > f(0x4b40_0068) { t } else { f(0x4b40_0068) };
    let v = if u < f(0x4b40_0096) { u } else { f(0x4b40_0096) };
    let k = v - f(BIASED);
    let r = a - k * f(0x3eb1_7218);
    let s = scale(v);
    let l = (1.0 - s) / (1.0 + s);
    let z = r * r;
    let q = z * (f(0x3eaa_aa7a) + z * f(0xbcb5_1554)) - l * r;
    let h = r - (r * q + 0.0) / (1.0 + q);
    unit((1.0 - l * l) * h - l)
}

/// The lesser of two sizes over the greater; 0 for two zeros.
fn ratio(ay: f32, ax: f32) -> f32 {
    if ay == ax {
        return if ax == 0.0 { 0.0 } else { 1.0 };
    }
    if ay > ax { ax / ay } else { ay / ax }
}

/// Below zero, or -0, which its reciprocal tells.
fn negative(x: f32) -> bool {
    x < 0.0 || 1.0 / x < 0.0
}

pub fn atan2(y: f32, x: f32) -> f32 {
    let ax = if x < 0.0 { -x } else { x };
    let ay = if y < 0.0 { -y } else { y };
    let t = ratio(ay, ax);
    let z = t * t;
    let high = f(0xbd9b_4010) + z * (f(0x3d32_652f) + z * (f(0xbc87_d534) + z * f(0x3b42_f161)));
    let w = f(0xbeaa_aa72) + z * (f(0x3e4c_bd6d) + z * (f(0xbe11_8db4) + z * (f(0x3dda_b468) + z * high)));
    let b = t + (t * z) * w;
    let c = if negative(x) { -b } else { b };
    let d = if ay > ax {
        f(0x3fc9_0fdb) - (c + f(0x333b_bd2e))
    } else if negative(x) {
        f(PI) + (c - f(0x33bb_bd2e))
    } else {
        c
    };
    let e = if negative(y) { -d } else { d };
    let top = if e > f(PI) { f(PI) } else { e };
    if top < -f(PI) { -f(PI) } else { top }
}
