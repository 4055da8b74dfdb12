//! Speed of the Rattle rows (librowbench.a) beside the same loops over Rust's own functions, in one program and one run.
//! Only ratios are printed: they hold on a busy machine where times do not.
//!
//! One repetition takes turns, ours and Rust's, and keeps the least time of each: what disturbs a turn only adds to it.
//! The table has the median of the repetitions' ratios and their spread. With --strict a missed bar is an error.

use std::hint::black_box;
use std::time::Instant;

extern "C" {
    fn rb_tanh_row(xs: *const f32, nx: usize, ys: *const f32, ny: usize, row: *mut f32, nr: usize, s: f32, c: f32, w: f32);
    fn rb_exp_row(xs: *const f32, nx: usize, row: *mut f32, nr: usize);
    fn rb_sin_cos(xs: *const f32, nx: usize, ss: *mut f32, ns: usize, cs: *mut f32, nc: usize);
    fn rb_atan2(ys: *const f32, ny: usize, xs: *const f32, nx: usize, out: *mut f32, n: usize);
    fn jb_sqrt(x: f32) -> f32;
    fn rb_sqrt(xs: *const f32, nx: usize, out: *mut f32, n: usize);
}

const PIXELS: usize = 200;
const ANGLES: usize = 16;
const REPETITIONS: usize = 15;
const TURNS: usize = 60;
const CALLS: usize = 40; // in one turn, so that the clock's own cost does not count

/// Inputs and both sides' results. `second` is used where there are two arguments or two results.
#[derive(Clone)]
struct Data {
    first: Vec<f32>,
    second: Vec<f32>,
    ours: [Vec<f32>; 2],
    rust: [Vec<f32>; 2],
}

struct Row {
    name: &'static str,
    bar: f64,
    data: Data,
    ours: fn(&mut Data),
    rust: fn(&mut Data),
}

/// xorshift64, uniform in low..high: the same inputs in every run.
fn random(state: &mut u64, low: f32, high: f32) -> f32 {
    *state ^= *state << 13;
    *state ^= *state >> 7;
    *state ^= *state << 17;
    low + (high - low) * ((*state >> 40) as f32 / 16777216.0)
}

fn data(count: usize, first: (f32, f32), second: (f32, f32)) -> Data {
    let mut state = 0x9e37_79b9_7f4a_7c15;
    let mut draw = |r: (f32, f32)| (0..count).map(|_| random(&mut state, r.0, r.1)).collect::<Vec<_>>();
    let zeros = || [vec![0.0; count], vec![0.0; count]];
    Data { first: draw(first), second: draw(second), ours: zeros(), rust: zeros() }
}

// ---- the rows: ours, then Rust's. `inline(never)`, so that both sides are a call.

/// An axis at 0.6 radians and an edge 0.8 pixels wide, behind a black box: Rust may not fold them into its loop.
fn axis() -> (f32, f32, f32) {
    black_box((0.564_642_5, 0.825_335_6, 0.8))
}

#[inline(never)]
fn tanh_ours(d: &mut Data) {
    let ((s, c, w), n, row) = (axis(), d.first.len(), &mut d.ours[0]);
    // Safety, here and below: all lengths are n, and the buffers are separate vectors.
    unsafe { rb_tanh_row(d.first.as_ptr(), n, d.second.as_ptr(), n, row.as_mut_ptr(), n, s, c, w) }
}

#[inline(never)]
fn tanh_rust(d: &mut Data) {
    let (s, c, w) = axis();
    for ((r, x), y) in d.rust[0].iter_mut().zip(&d.first).zip(&d.second) {
        *r = ((-s * x + c * y) / w).tanh();
    }
}

#[inline(never)]
fn exp_ours(d: &mut Data) {
    let n = d.first.len();
    unsafe { rb_exp_row(d.first.as_ptr(), n, d.ours[0].as_mut_ptr(), n) }
}

#[inline(never)]
fn exp_rust(d: &mut Data) {
    for (r, x) in d.rust[0].iter_mut().zip(&d.first) {
        *r = x.exp();
    }
}

#[inline(never)]
fn sin_cos_ours(d: &mut Data) {
    let n = d.first.len();
    let [ss, cs] = &mut d.ours;
    unsafe { rb_sin_cos(d.first.as_ptr(), n, ss.as_mut_ptr(), n, cs.as_mut_ptr(), n) }
}

#[inline(never)]
fn sin_cos_rust(d: &mut Data) {
    let [ss, cs] = &mut d.rust;
    for ((s, c), x) in ss.iter_mut().zip(cs).zip(&d.first) {
        (*s, *c) = x.sin_cos();
    }
}

#[inline(never)]
fn atan2_ours(d: &mut Data) {
    let n = d.first.len();
    unsafe { rb_atan2(d.first.as_ptr(), n, d.second.as_ptr(), n, d.ours[0].as_mut_ptr(), n) }
}

#[inline(never)]
fn atan2_rust(d: &mut Data) {
    for ((r, y), x) in d.rust[0].iter_mut().zip(&d.first).zip(&d.second) {
        *r = y.atan2(*x);
    }
}

/// Through the library, a call for each root.
#[inline(never)]
fn sqrt_called(d: &mut Data) {
    for (r, x) in d.ours[0].iter_mut().zip(&d.first) {
        *r = unsafe { jb_sqrt(*x) };
    }
}

#[inline(never)]
fn sqrt_ours(d: &mut Data) {
    let n = d.first.len();
    unsafe { rb_sqrt(d.first.as_ptr(), n, d.ours[0].as_mut_ptr(), n) }
}

/// The bare instruction, one root at a time: f32::sqrt would become the form that takes four.
#[inline(never)]
fn sqrt_rust(d: &mut Data) {
    for (r, x) in d.rust[0].iter_mut().zip(&d.first) {
        let mut root = *x;
        unsafe { std::arch::asm!("sqrtss {0}, {0}", inout(xmm_reg) root, options(pure, nomem, nostack)) }
        *r = root;
    }
}

fn rows() -> Vec<Row> {
    let pixels = data(PIXELS, (-8.0, 8.0), (-8.0, 8.0));
    let falling = data(PIXELS, (-87.0, 0.0), (0.0, 0.0)); // no subnormal results, which cost either side extra
    let angles = data(ANGLES, (-7.0, 7.0), (0.0, 0.0));
    let pairs = data(PIXELS, (-100.0, 100.0), (-100.0, 100.0));
    let squares = data(PIXELS, (0.0, 1000.0), (0.0, 0.0));
    vec![
        Row { name: "tanh row of 200 pixels", bar: 0.15, data: pixels, ours: tanh_ours, rust: tanh_rust },
        Row { name: "exp row of 200", bar: 0.6, data: falling, ours: exp_ours, rust: exp_rust },
        Row { name: "sin and cos of 16 angles", bar: 0.8, data: angles, ours: sin_cos_ours, rust: sin_cos_rust },
        Row { name: "atan2 of 200 pairs", bar: 1.0, data: pairs, ours: atan2_ours, rust: atan2_rust },
        Row { name: "200 calls of jb_sqrt", bar: 8.0, data: squares.clone(), ours: sqrt_called, rust: sqrt_rust },
        Row { name: "square root in a loop", bar: 8.0, data: squares, ours: sqrt_ours, rust: sqrt_rust },
    ]
}

/// The speed of a wrong answer is worth nothing: both sides must agree, within 2^-20.
fn check(row: &mut Row) {
    (row.ours)(&mut row.data);
    (row.rust)(&mut row.data);
    let pairs = row.data.ours.iter().flatten().zip(row.data.rust.iter().flatten());
    for (i, (a, b)) in pairs.enumerate() {
        let far = !((a - b).abs() <= b.abs().max(1.0) / 1048576.0);
        if far {
            println!("FAIL: {}: result {i} is {a:e}, Rust's {b:e}", row.name);
            std::process::exit(1);
        }
    }
}

/// Seconds of one turn.
fn turn(call: fn(&mut Data), data: &mut Data) -> f64 {
    let start = Instant::now();
    for _ in 0..CALLS {
        call(black_box(data));
    }
    start.elapsed().as_secs_f64()
}

fn repetition(row: &mut Row) -> f64 {
    let (mut ours, mut rust) = (f64::INFINITY, f64::INFINITY);
    for _ in 0..TURNS {
        ours = ours.min(turn(row.ours, &mut row.data));
        rust = rust.min(turn(row.rust, &mut row.data));
    }
    ours / rust
}

/// Prints one row of the table, and says whether the bar is met.
fn measure(row: &mut Row) -> bool {
    check(row);
    repetition(row); // warms caches and the clock of the core
    let mut ratios: Vec<f64> = (0..REPETITIONS).map(|_| repetition(row)).collect();
    ratios.sort_by(f64::total_cmp);
    let (least, median, most) = (ratios[0], ratios[REPETITIONS / 2], ratios[REPETITIONS - 1]);
    let met = median <= row.bar;
    let verdict = if met { "" } else { "  MISSED" };
    println!("{:<26} {median:>10.3}   {:<18} {:>5}{verdict}", row.name, format!("{least:.3}..{most:.3}"), row.bar);
    met
}

fn main() {
    let strict = std::env::args().any(|a| a == "--strict");
    println!("{:<26} {:>10}   {:<18} {:>5}", "row", "ours/Rust", "least..greatest", "bar");
    let missed: Vec<&str> = rows().iter_mut().filter_map(|r| (!measure(r)).then_some(r.name)).collect();
    match missed.is_empty() {
        true => println!("all bars met, by the median of {REPETITIONS} repetitions"),
        false => println!("missed: {}", missed.join(", ")),
    }
    if strict && !missed.is_empty() {
        std::process::exit(1);
    }
}
