//! Calls every function of jengubool.h from Rust, and holds a dozen or more results each against values worked out
//! without the library: exact cases to the bit, other points against Rust's own f64 functions. The first failure ends
//! the program with a sentence that names the call. No outside crate: rustc alone builds it.

/// The calls of a ring have one shape.
macro_rules! ring_calls {
    ($($name:ident),*) => {
        extern "C" {
            $(fn $name(
                samples: *const f32,
                samples_len: usize,
                angles: *const f32,
                angles_len: usize,
                fit: *mut f32,
                fit_len: usize,
                counts: *mut u32,
                counts_len: usize,
            ) -> u32;)*
        }
    };
}

ring_calls!(jb_fit_ring, jb_fit_ring24, jb_ring_record);

extern "C" {
    fn jb_sin(x: f32) -> f32;
    fn jb_cos(x: f32) -> f32;
    fn jb_tanh(x: f32) -> f32;
    fn jb_exp(x: f32) -> f32;
    fn jb_atan2(y: f32, x: f32) -> f32;
    fn jb_sqrt(x: f32) -> f32;
    fn jb_narrow(x: f64) -> f32;
    fn jb_answer_line(line: *const u8, line_len: usize, out: *mut u8, out_len: usize) -> u32;
    fn jb_tables_fresh(tables: *mut Tables);
    fn jb_tables_store(tables: *mut Tables, angles: *const f32, angles_len: usize) -> u32;
    fn jb_tables_fit(
        tables: *const Tables,
        samples: *const f32,
        samples_len: usize,
        angles: *const f32,
        angles_len: usize,
        fit: *mut f32,
        fit_len: usize,
        counts: *mut u32,
        counts_len: usize,
    ) -> u32;
    fn jb_fit_disk(
        val_energy: f32,
        base0: f32,
        base1: f32,
        xs: *const f32,
        xs_len: usize,
        ys: *const f32,
        ys_len: usize,
        vals_centered: *const f32,
        vals_centered_len: usize,
        grad_angles: *const f32,
        grad_angles_len: usize,
        grad_weights: *const f32,
        grad_weights_len: usize,
        fit: *mut f32,
        fit_len: usize,
        counts: *mut u32,
        counts_len: usize,
    ) -> u32;
}

const TABLES_WORDS: usize = 14089;

/// The struct jb_tables of the header.
#[repr(C)]
struct Tables {
    words: [f32; TABLES_WORDS],
}

const INF: f32 = f32::INFINITY;
const SIGN: u32 = 0x8000_0000;
const ONE: u32 = 0x3f80_0000;
const INF_BITS: u32 = 0x7f80_0000;
const SINE_BAR: f64 = 1.0 / 16777216.0; // 2^-24
const ATAN2_BAR: f64 = 4.0 * SINE_BAR;

static CHECKS: std::sync::atomic::AtomicUsize = std::sync::atomic::AtomicUsize::new(0);

fn judge(right: bool, sentence: impl Fn() -> String) {
    CHECKS.fetch_add(1, std::sync::atomic::Ordering::Relaxed);
    if !right {
        println!("FAIL: {}", sentence());
        std::process::exit(1);
    }
}

fn exact(call: &str, got: f32, want: u32) {
    judge(got.to_bits() == want, || format!("{call} is {:08x}, it must be {want:08x}", got.to_bits()));
}

fn near(call: &str, got: f32, want: f64, most: f64) {
    judge((got as f64 - want).abs() <= most, || format!("{call} is {got:e}, more than {most:e} away from {want:e}"));
}

fn not_a_number(call: &str, got: f32) {
    judge(got.is_nan(), || format!("{call} is {got:e}, it must be NaN"));
}

// Every function here takes and returns plain floats and touches no memory: each call is sound.
macro_rules! exact {
    ($call:expr, $want:expr) => { exact(stringify!($call), unsafe { $call }, $want) };
}
macro_rules! near {
    ($call:expr, $want:expr, $most:expr) => { near(stringify!($call), unsafe { $call }, $want, $most) };
}
macro_rules! not_a_number {
    ($call:expr) => { not_a_number(stringify!($call), unsafe { $call }) };
}

fn bits(b: u32) -> f32 {
    f32::from_bits(b)
}

/// A NaN with another sign and other digits than f32::NAN.
fn other_nan() -> f32 {
    bits(0xff81_2345)
}

/// Ours above 64: the sine or cosine of the exact remainder by the f32 next to 2 PI.
fn far(x: f64) -> f64 {
    x % std::f32::consts::TAU as f64
}

fn check_sin() {
    exact!(jb_sin(0.0), 0);
    exact!(jb_sin(-0.0), SIGN);
    exact!(jb_sin(bits(1)), 1);
    exact!(jb_sin(-bits(1)), SIGN | 1);
    exact!(jb_sin(bits(0x3580_0000)), 0x3580_0000); // 2^-20: x^3/6 is far below its last digit
    exact!(jb_sin(bits(0xb580_0000)), 0xb580_0000);
    not_a_number!(jb_sin(f32::NAN));
    not_a_number!(jb_sin(other_nan()));
    not_a_number!(jb_sin(INF));
    not_a_number!(jb_sin(-INF));
    near!(jb_sin(0.75), 0.75f64.sin(), SINE_BAR);
    near!(jb_sin(-4.5), (-4.5f64).sin(), SINE_BAR);
    near!(jb_sin(44.0), 44f64.sin(), SINE_BAR);
    near!(jb_sin(-64.0), (-64f64).sin(), SINE_BAR);
    near!(jb_sin(500.0), far(500.0).sin(), SINE_BAR);
}

fn check_cos() {
    exact!(jb_cos(0.0), ONE);
    exact!(jb_cos(-0.0), ONE);
    exact!(jb_cos(bits(1)), ONE);
    exact!(jb_cos(bits(0xb580_0000)), ONE);
    not_a_number!(jb_cos(f32::NAN));
    not_a_number!(jb_cos(other_nan()));
    not_a_number!(jb_cos(INF));
    not_a_number!(jb_cos(-INF));
    near!(jb_cos(0.75), 0.75f64.cos(), SINE_BAR);
    near!(jb_cos(-4.5), (-4.5f64).cos(), SINE_BAR);
    near!(jb_cos(33.0), 33f64.cos(), SINE_BAR);
    near!(jb_cos(-64.0), (-64f64).cos(), SINE_BAR);
    near!(jb_cos(500.0), far(500.0).cos(), SINE_BAR);
}

fn check_tanh() {
    let bar = (-23.9f64).exp2();
    exact!(jb_tanh(0.0), 0);
    exact!(jb_tanh(-0.0), SIGN);
    exact!(jb_tanh(bits(1)), 1);
    exact!(jb_tanh(bits(0xb580_0000)), 0xb580_0000);
    exact!(jb_tanh(INF), ONE);
    exact!(jb_tanh(-INF), SIGN | ONE);
    exact!(jb_tanh(-9.5), SIGN | ONE);
    exact!(jb_tanh(f32::MAX), ONE);
    not_a_number!(jb_tanh(f32::NAN));
    not_a_number!(jb_tanh(other_nan()));
    near!(jb_tanh(-0.25), (-0.25f64).tanh(), bar);
    near!(jb_tanh(0.75), 0.75f64.tanh(), bar);
    near!(jb_tanh(2.0), 2f64.tanh(), bar);
    near!(jb_tanh(-6.0), (-6f64).tanh(), bar);
}

fn check_exp() {
    let bar = (-23.6f64).exp2();
    let least = bits(0xc2ae_ac4f);
    exact!(jb_exp(0.0), ONE);
    exact!(jb_exp(-0.0), ONE);
    exact!(jb_exp(-bits(1)), ONE);
    exact!(jb_exp(bits(0xb280_0000)), ONE); // -2^-26
    exact!(jb_exp(-INF), 0);
    exact!(jb_exp(-f32::MAX), 0);
    exact!(jb_exp(bits(0xc2ae_ac50)), 0); // one below the least argument with a normal result
    exact!(jb_exp(INF), INF_BITS);
    exact!(jb_exp(bits(0x42ae_ac50)), INF_BITS);
    not_a_number!(jb_exp(f32::NAN));
    not_a_number!(jb_exp(other_nan()));
    near!(jb_exp(-2.0), (-2f64).exp(), bar * (-2f64).exp());
    near!(jb_exp(-12.5), (-12.5f64).exp(), bar * (-12.5f64).exp());
    near!(jb_exp(-80.0), (-80f64).exp(), bar * (-80f64).exp());
    near!(jb_exp(least), (least as f64).exp(), bar * (least as f64).exp());
}

fn check_atan2() {
    exact!(jb_atan2(0.0, 0.0), 0);
    exact!(jb_atan2(-0.0, 0.0), SIGN);
    exact!(jb_atan2(0.0, -0.0), 0x4049_0fdb);
    exact!(jb_atan2(-0.0, -0.0), 0xc049_0fdb);
    exact!(jb_atan2(3.0, -0.0), 0x3fc9_0fdb);
    exact!(jb_atan2(-3.0, 0.0), 0xbfc9_0fdb);
    exact!(jb_atan2(0.5, 0.5), 0x3f49_0fdb);
    exact!(jb_atan2(0.5, -0.5), 0x4016_cbe4);
    exact!(jb_atan2(-INF, -INF), 0xc016_cbe4);
    exact!(jb_atan2(-1.0, INF), SIGN);
    exact!(jb_atan2(1.0, -INF), 0x4049_0fdb);
    not_a_number!(jb_atan2(f32::NAN, 1.0));
    not_a_number!(jb_atan2(0.0, other_nan()));
    near!(jb_atan2(2.0, 3.0), 2f64.atan2(3.0), ATAN2_BAR);
    near!(jb_atan2(5.0, -2.0), 5f64.atan2(-2.0), ATAN2_BAR);
    near!(jb_atan2(-7.0, -90.0), (-7f64).atan2(-90.0), ATAN2_BAR);
}

fn check_sqrt() {
    exact!(jb_sqrt(0.0), 0);
    exact!(jb_sqrt(-0.0), SIGN);
    exact!(jb_sqrt(2.0), 0x3fb5_04f3);
    exact!(jb_sqrt(8.0), 0x4035_04f3);
    exact!(jb_sqrt(3.0), 0x3fdd_b3d7);
    exact!(jb_sqrt(bits(0x3f80_0001)), ONE);
    exact!(jb_sqrt(bits(0x3f7f_ffff)), 0x3f7f_ffff);
    exact!(jb_sqrt(bits(1)), 0x1a35_04f3);
    exact!(jb_sqrt(bits(2)), 0x1a80_0000); // 2^-148
    exact!(jb_sqrt(f32::MAX), 0x5f7f_ffff);
    exact!(jb_sqrt(INF), INF_BITS);
    not_a_number!(jb_sqrt(-2.0));
    not_a_number!(jb_sqrt(-bits(1)));
    not_a_number!(jb_sqrt(-INF));
    not_a_number!(jb_sqrt(f32::NAN));
}

fn check_narrow() {
    let step = f32::EPSILON as f64; // 2^-23
    let least = bits(1) as f64;
    let overflow = f32::MAX as f64 + (104f64 - 1.0).exp2(); // the tie above the greatest f32
    exact!(jb_narrow(-0.0), SIGN);
    exact!(jb_narrow(1.0 + 0.5 * step), ONE);
    exact!(jb_narrow(1.0 + 0.5 * step + f64::EPSILON), ONE + 1);
    exact!(jb_narrow(-1.0 - 1.5 * step), SIGN | (ONE + 2));
    exact!(jb_narrow(least), 1);
    exact!(jb_narrow(0.5 * least), 0);
    exact!(jb_narrow(-0.5 * least), SIGN);
    exact!(jb_narrow(0.5 * least * (1.0 + f64::EPSILON)), 1);
    exact!(jb_narrow(2.5 * least), 2);
    exact!(jb_narrow(f32::MIN_POSITIVE as f64 - 0.5 * least), 0x0080_0000);
    exact!(jb_narrow(5e-324), 0);
    exact!(jb_narrow(f64::from_bits(overflow.to_bits() - 1)), 0x7f7f_ffff);
    exact!(jb_narrow(overflow), INF_BITS);
    exact!(jb_narrow(f64::MIN), SIGN | INF_BITS);
    exact!(jb_narrow(f64::NEG_INFINITY), SIGN | INF_BITS);
    not_a_number!(jb_narrow(f64::NAN));
    not_a_number!(jb_narrow(f64::from_bits(0xfff0_0000_0000_0001)));
}

fn whole(what: &str, got: u32, want: u32) {
    judge(got == want, || format!("{what} is {got}, it must be {want}"));
}

/// A ring's call: its name, its number of samples, and how many values it writes.
#[derive(Clone, Copy)]
struct Call {
    name: &'static str,
    n: usize,
    values: usize,
}

const RING_CALLS: [Call; 4] = [
    Call { name: "jb_fit_ring", n: 16, values: 6 },
    Call { name: "jb_fit_ring24", n: 24, values: 6 },
    Call { name: "jb_ring_record", n: 16, values: 7 },
    Call { name: "jb_ring_record", n: 24, values: 7 },
];

fn fit_ring(call: Call, samples: &[f32], angles: &[f32], fit: &mut [f32], counts: &mut [u32]) -> u32 {
    let (s, a) = ((samples.as_ptr(), samples.len()), (angles.as_ptr(), angles.len()));
    let (f, c) = ((fit.as_mut_ptr(), fit.len()), (counts.as_mut_ptr(), counts.len()));
    match call.name {
        "jb_ring_record" => unsafe { jb_ring_record(s.0, s.1, a.0, a.1, f.0, f.1, c.0, c.1) },
        "jb_fit_ring24" => unsafe { jb_fit_ring24(s.0, s.1, a.0, a.1, f.0, f.1, c.0, c.1) },
        _ => unsafe { jb_fit_ring(s.0, s.1, a.0, a.1, f.0, f.1, c.0, c.1) },
    }
}

fn fit_disk(head: [f32; 3], runs: [&[f32]; 5], fit: &mut [f32], counts: &mut [u32]) -> u32 {
    let [e, b0, b1] = head;
    let [x, y, v, a, w] = runs.map(|run| (run.as_ptr(), run.len()));
    let (f, c) = (fit.len(), counts.len());
    unsafe { jb_fit_disk(e, b0, b1, x.0, x.1, y.0, y.1, v.0, v.1, a.0, a.1, w.0, w.1, fit.as_mut_ptr(), f, counts.as_mut_ptr(), c) }
}

fn answer_line(line: &[u8], out: &mut [u8]) -> u32 {
    unsafe { jb_answer_line(line.as_ptr(), line.len(), out.as_mut_ptr(), out.len()) }
}

/// The printed examples of docs/RULES.md: n samples of 0 at n angles of 0. Before it every refusal, lengths and places.
fn check_fit_ring(call: Call) {
    let Call { name, n, values: written } = call;
    let (mut fit, mut counts) = ([7.0f32; 8], [7u32; 5]);
    for i in 0..2 * n {
        let mut values = vec![0.0f32; 2 * n];
        values[2 * n - 1] = f32::NAN; // the first one counts
        values[i] = [f32::NAN, INF, -INF][i % 3];
        let wild = fit_ring(call, &values[..n], &values[n..], &mut fit, &mut counts);
        whole(&format!("{name} of a value that is not finite"), wild, 196608 + i as u32);
    }
    let (zeros, nans) = (vec![0.0f32; n], [f32::NAN; 25]);
    for wrong in [0, n - 1, 40 - n, n + 1] {
        whole(&format!("{name} of {wrong} samples"), fit_ring(call, &nans[..wrong], &zeros, &mut fit, &mut counts), 65536);
        whole(&format!("{name} of {wrong} angles"), fit_ring(call, &zeros, &nans[..wrong], &mut fit, &mut counts), 65536);
    }
    whole(&format!("{name} into a float too few"), fit_ring(call, &zeros, &zeros, &mut fit[..written - 1], &mut counts), 65536);
    whole(&format!("{name} into 3 counts"), fit_ring(call, &zeros, &zeros, &mut fit, &mut counts[..3]), 65536);
    judge(fit == [7.0; 8] && counts == [7; 5], || format!("a refused {name} changed a buffer"));
    whole(&format!("{name} of zeros"), fit_ring(call, &zeros, &zeros, &mut fit, &mut counts), 0);
    let mean = if written == 7 { 0 } else { 0x40e0_0000 };
    for (got, want) in fit.iter().zip([0, 0, 0x3fc9_0fdb, 0x4049_0fdb, 0x4049_0fdb, 0, mean, 0x40e0_0000]) {
        exact("fit of zeros", *got, want);
    }
    judge(counts == [1, 0, 0, 0, 7], || format!("the counts of zeros are {counts:?}"));
    check_a_ring(call, &mut fit, &mut counts);
}

/// The ring of header.c: a corner with axes at 30 and 120 degrees, as the model has it.
fn check_a_ring(call: Call, fit: &mut [f32; 8], counts: &mut [u32; 5]) {
    let n = call.n;
    let (axis1, axis2) = (30.0f64.to_radians(), 120.0f64.to_radians());
    let edge = |phi: f64, axis: f64| (4.0 * (phi - axis).sin()).tanh();
    let phis: Vec<f64> = (0..n).map(|i| std::f64::consts::TAU * i as f64 / n as f64).collect();
    let samples: Vec<f32> = phis.iter().map(|&phi| (128.0 + 60.0 * edge(phi, axis1) * edge(phi, axis2)) as f32).collect();
    let angles: Vec<f32> = phis.iter().map(|&phi| phi as f32).collect();
    whole("a ring fit of a corner", fit_ring(call, &samples, &angles, fit, counts), 0);
    near("the amplitude of a ring's corner", fit[0], 60.0, 0.01);
    near("theta1 of a ring's corner", fit[1], axis1, 0.0002);
    near("theta2 of a ring's corner", fit[2], axis2, 0.0002);
    near("the residual of a ring's corner", fit[5], 0.0, 0.01);
    if call.values == 7 {
        near("the mean of a ring's corner", fit[6], 128.0, 0.01);
    }
    judge(counts[0] == 1 && counts[3] == 1 && counts[4] == 7, || format!("the counts of a ring's corner are {counts:?}"));
}

/// Tables of which every word has the same bits.
fn filled(pattern: u32) -> Box<Tables> {
    Box::new(Tables { words: [bits(pattern); TABLES_WORDS] })
}

fn fresh() -> Box<Tables> {
    let mut tables = filled(!0);
    unsafe { jb_tables_fresh(&mut *tables) };
    tables
}

fn store(tables: &mut Tables, angles: &[f32]) -> u32 {
    unsafe { jb_tables_store(tables, angles.as_ptr(), angles.len()) }
}

fn tables_fit(tables: &Tables, samples: &[f32], angles: &[f32], fit: &mut [f32], counts: &mut [u32]) -> u32 {
    let (s, a) = ((samples.as_ptr(), samples.len()), (angles.as_ptr(), angles.len()));
    let (f, c) = ((fit.as_mut_ptr(), fit.len()), (counts.as_mut_ptr(), counts.len()));
    unsafe { jb_tables_fit(tables, s.0, s.1, a.0, a.1, f.0, f.1, c.0, c.1) }
}

/// The words by their bits: no NaN is equal to itself.
fn word_bits(tables: &Tables) -> Vec<u32> {
    tables.words.iter().map(|word| word.to_bits()).collect()
}

fn kept(what: &str, before: &[u32], tables: &[f32]) {
    judge(before.iter().zip(tables).all(|(old, new)| *old == new.to_bits()), || format!("{what} changed a word"));
}

/// 16 angles in even steps from a first one on.
fn ring_from(first: f32) -> [f32; 16] {
    std::array::from_fn(|i| first + i as f32 * std::f32::consts::FRAC_PI_8)
}

/// A corner in whole grey values. Axes that are not square to each other make a second start, and that is what asks a table.
fn grey_corner(angles: &[f32; 16], axis1: f32, axis2: f32) -> [f32; 16] {
    let edge = |phi: f32, axis: f32| unsafe { jb_tanh(4.0 * jb_sin(phi - axis)) };
    angles.map(|phi| (128.5 + 60.0 * edge(phi, axis1) * edge(phi, axis2)).trunc())
}

/// Refused stores keep every word. Lengths come before values, and both before a lack of room.
fn check_refused_stores(tables: &mut Tables) {
    let before = word_bits(tables);
    for wrong in [0, 1, 15, 17, 24] {
        whole("jb_tables_store of a wrong number of angles", store(tables, &[f32::NAN; 24][..wrong]), 65536);
    }
    for place in 0..16 {
        let mut angles = ring_from(0.0);
        angles[15] = f32::NAN; // the first one counts
        angles[place] = [f32::NAN, INF, -INF][place % 3];
        whole("jb_tables_store of an angle that is not finite", store(tables, &angles), 196608 + place as u32);
    }
    kept("a refused jb_tables_store", &before, &tables.words);
}

/// Three tables, which keep their words; a fourth finds no room. The first word says how many are held, then come the three.
fn check_tables_store() {
    let mut tables = fresh();
    for held in 0..3 {
        check_refused_stores(&mut tables);
        let before = word_bits(&tables);
        whole("jb_tables_store of a table", store(&mut tables, &ring_from(0.1 * held as f32)), 0);
        let end = 1 + held * (TABLES_WORDS - 1) / 3;
        kept("a later jb_tables_store", &before[1..end], &tables.words[1..end]);
    }
    check_refused_stores(&mut tables);
    let before = word_bits(&tables);
    whole("jb_tables_store of a fourth table", store(&mut tables, &ring_from(0.0)), 393216);
    kept("a fourth jb_tables_store", &before, &tables.words);
    unsafe { jb_tables_fresh(&mut *tables) };
    whole("jb_tables_store after jb_tables_fresh", store(&mut tables, &ring_from(0.0)), 0);
}

/// What jb_tables_fit is refused for. It takes no ring of 24.
fn check_tables_refusals(tables: &Tables) {
    let (mut fit, mut counts) = ([7.0f32; 8], [7u32; 5]);
    let (zeros, nans) = ([0.0f32; 16], [f32::NAN; 24]);
    for wrong in [0, 15, 17, 24] {
        whole("jb_tables_fit of wrong samples", tables_fit(tables, &nans[..wrong], &zeros, &mut fit, &mut counts), 65536);
        whole("jb_tables_fit of wrong angles", tables_fit(tables, &zeros, &nans[..wrong], &mut fit, &mut counts), 65536);
    }
    whole("jb_tables_fit of 24 samples", tables_fit(tables, &nans, &nans, &mut fit, &mut counts), 65536);
    whole("jb_tables_fit into 6 floats", tables_fit(tables, &zeros, &zeros, &mut fit[..6], &mut counts), 65536);
    whole("jb_tables_fit into 3 counts", tables_fit(tables, &zeros, &zeros, &mut fit, &mut counts[..3]), 65536);
    for place in 0..32 {
        let mut values = [0.0f32; 32];
        values[31] = f32::NAN; // the first one counts
        values[place] = [f32::NAN, INF, -INF][place % 3];
        let wild = tables_fit(tables, &values[..16], &values[16..], &mut fit, &mut counts);
        whole("jb_tables_fit of a value that is not finite", wild, 196608 + place as u32);
    }
    judge(fit == [7.0; 8] && counts == [7; 5], || "a refused jb_tables_fit changed a buffer".to_string());
}

/// The ring by both calls: their buffers, by the tables first.
fn both_ways(tables: &Tables, samples: &[f32; 16], angles: &[f32; 16]) -> [([f32; 8], [u32; 5]); 2] {
    let ((mut fit, mut counts), (mut direct, mut direct_counts)) = (([7.0f32; 8], [7u32; 5]), ([7.0f32; 8], [7u32; 5]));
    whole("jb_tables_fit", tables_fit(tables, samples, angles, &mut fit, &mut counts), 0);
    whole("jb_ring_record", fit_ring(RING_CALLS[2], samples, angles, &mut direct, &mut direct_counts), 0);
    let pi = std::f32::consts::PI;
    let [amp, theta1, theta2, error1, error2, _, _, behind] = fit;
    let axes = (0.0..pi).contains(&theta1) && (theta1..2.0 * pi).contains(&theta2);
    let errors = (0.0..=pi).contains(&error1) && (0.0..=pi).contains(&error2);
    let counted = (1..=2).contains(&counts[0]) && counts[1] <= 6 && counts[2] <= 6 && counts[3] <= 1;
    judge((amp.is_nan() || amp >= 0.0) && axes && errors && counted, || format!("jb_tables_fit answers {fit:?} and {counts:?}"));
    judge(behind == 7.0 && counts[4] == 7, || "jb_tables_fit wrote behind its answer".to_string());
    [(fit, counts), (direct, direct_counts)]
}

/// Where no table is near, every bit of both buffers is jb_ring_record's.
fn check_no_table_near(tables: &Tables) {
    let angles = ring_from(0.5);
    for i in 0..32 {
        let axis = 0.1 * i as f32;
        let [(fit, counts), (direct, direct_counts)] =
            both_ways(tables, &grey_corner(&angles, axis, axis + 0.3 + 0.08 * (i % 16) as f32), &angles);
        judge(fit.map(f32::to_bits) == direct.map(f32::to_bits) && counts == direct_counts, || {
            format!("without a table jb_tables_fit answers {fit:?} and {counts:?}, jb_ring_record {direct:?} and {direct_counts:?}")
        });
    }
}

/// A skewed corner by a table of its angles, one of them 4.8e-7 away. Without models the same ring finds no second start:
/// so the seed was the table's.
fn check_table_near() {
    let (mut tables, mut angles) = (fresh(), ring_from(0.0));
    whole("jb_tables_store of a ring's angles", store(&mut tables, &angles), 0);
    angles[9] = bits(angles[9].to_bits() + 2);
    let (samples, before) = (grey_corner(&angles, 0.7, 1.2), word_bits(&tables));
    let [(fit, counts), (direct, _)] = both_ways(&tables, &samples, &angles);
    kept("jb_tables_fit", &before, &tables.words);
    whole("starts by a table", counts[0], 2);
    for (got, want) in fit.into_iter().zip(direct) {
        near("a value by a table, beside the direct one", got, want as f64, 0.001);
    }
    near("theta1 by a table", fit[1], 0.7, 0.01);
    near("theta2 by a table", fit[2], 1.2, 0.01);
    tables.words[17..1 + (TABLES_WORDS - 1) / 3].fill(0.0);
    whole("starts by a table without models", both_ways(&tables, &samples, &angles)[0].1[0], 1);
}

/// Any words, also with a first one that counts tables or nearly so, and with the ring's angles in front of each table.
fn check_any_words() {
    let (mut tables, angles, mut state) = (filled(0), ring_from(0.0), 0x9e37_79b9_7f4a_7c15u64);
    let first = [1.0, 2.0, 3.0, f32::NAN, INF, -INF, -1.0, 3.5, -0.0];
    for i in 0..80 {
        for word in tables.words.iter_mut() {
            state = state.wrapping_mul(0x5851_f42d_4c95_7f2d).wrapping_add(1);
            *word = bits((state >> 32) as u32);
        }
        if let Some(&count) = first.get(i % 10) {
            tables.words[0] = count;
        }
        if i % 4 > 0 {
            (0..3).for_each(|k| tables.words[1 + k * (TABLES_WORDS - 1) / 3..][..16].copy_from_slice(&angles));
        }
        let before = word_bits(&tables);
        both_ways(&tables, &grey_corner(&angles, 0.7, 1.2 + 0.02 * i as f32), &angles);
        kept("jb_tables_fit by any words", &before, &tables.words);
        let code = store(&mut tables, &angles);
        judge(code == 0 || code == 393216, || format!("jb_tables_store into any words is {code}"));
        if code != 0 {
            kept("a refused jb_tables_store into any words", &before, &tables.words);
        }
    }
}

fn check_tables() {
    check_tables_store();
    let mut tables = fresh();
    check_tables_refusals(&tables);
    check_no_table_near(&tables);
    check_no_table_near(&filled(0));
    for first in [0.0, 0.1, 0.49] {
        whole("jb_tables_store of other angles", store(&mut tables, &ring_from(first)), 0);
    }
    check_tables_refusals(&tables);
    check_no_table_near(&tables);
    check_table_near();
    check_any_words();
}

/// A disk without contrast, refused in each way. The example of docs/RULES.md, a pixel of 0, is refused after 96 trials.
fn check_fit_disk() {
    let (mut fit, mut counts) = ([7.0f32; 12], [7u32; 3]);
    let head = [0.0, 0.0, bits(0x3fc9_0fdb)];
    let zeros = [0.0f32; 321];
    for i in 0..18 {
        let mut values = [0.0f32; 18];
        values[i] = [f32::NAN, INF, -INF][i % 3];
        let runs = std::array::from_fn(|r| &values[3 + 3 * r..6 + 3 * r]);
        let wild = fit_disk([values[0], values[1], values[2]], runs, &mut fit, &mut counts);
        whole("jb_fit_disk of a value that is not finite", wild, 196608 + i as u32);
    }
    for i in 1..5 {
        let mut runs = [&zeros[..3]; 5];
        runs[i] = &zeros[..4];
        whole("jb_fit_disk of 3 and 4 pixels", fit_disk(head, runs, &mut fit, &mut counts), 65536);
    }
    whole("jb_fit_disk of no pixel", fit_disk(head, [&[]; 5], &mut fit, &mut counts), 131072);
    whole("jb_fit_disk of 321 pixels", fit_disk(head, [&zeros; 5], &mut fit, &mut counts), 131072);
    whole("jb_fit_disk into 10 floats", fit_disk(head, [&[]; 5], &mut fit[..10], &mut counts), 65536);
    whole("jb_fit_disk into 1 count", fit_disk(head, [&[]; 5], &mut fit, &mut counts[..1]), 65536);
    whole("jb_fit_disk of a pixel of 0", fit_disk(head, [&zeros[..1]; 5], &mut fit, &mut counts), 262144 + 96);
    judge(fit == [7.0; 12] && counts == [7; 3], || "a refused jb_fit_disk changed a buffer".to_string());
    check_a_corner(&mut fit, &mut counts);
}

/// The corner of header.c, with gradients of size 1 along its axes in the place of the model's.
fn check_a_corner(fit: &mut [f32; 12], counts: &mut [u32; 3]) {
    let (axis1, axis2) = (30.0f32.to_radians(), 120.0f32.to_radians());
    let mut runs: [Vec<f32>; 5] = Default::default();
    for (x, y) in (0..289).map(|i| ((i % 17 - 8) as f32, (i / 17 - 8) as f32)) {
        let (d1, d2) = (axis1.cos() * y - axis1.sin() * x, axis2.cos() * y - axis2.sin() * x);
        let nearer = if d1.abs() < d2.abs() { axis1 } else { axis2 };
        let edge = d1.abs().min(d2.abs()) < 1.0;
        if (1.0..=64.0).contains(&(x * x + y * y)) {
            let pixel = [x, y, 60.0 * (d1 / 0.7).tanh() * (d2 / 0.7).tanh(), nearer, edge as u8 as f32];
            runs.iter_mut().zip(pixel).for_each(|(run, value)| run.push(value));
        }
    }
    let energy = runs[2].iter().map(|v| v * v).sum();
    let code = fit_disk([energy, 0.4, 2.2], std::array::from_fn(|r| &runs[r][..]), fit, counts);
    whole("jb_fit_disk of a corner", code, 0);
    near("theta1 of a corner", fit[0], axis1 as f64, 0.02);
    near("theta2 of a corner", fit[1], axis2 as f64, 0.02);
    exact("the width", fit[2], 0x3f33_3333);
    near("the amplitude", fit[3], 60.0, 2.0);
    near("the correlation", fit[6], 1.0, 0.01);
    exact("the float behind the disk fit", fit[11], 0x40e0_0000);
    judge(counts[0] <= 144 && counts[1] == 1 && counts[2] == 7, || format!("the counts of a corner are {counts:?}"));
}

/// A ring's line: type 01 has 16 samples, 03 has 24. Each with the length of the other is malformed.
fn check_ring_line(digit: u8, length: usize, other: usize) {
    let zeros = format!("8{}0000000000000000003fc90fdb40490fdb40490fdb0000000001000000", digit as char);
    let mut line = [b'0'; 386];
    line[1] = digit;
    let mut out = [b'.'; 120];
    whole("jb_answer_line into 97 bytes", answer_line(&line[..length], &mut out[..97]), 1);
    judge(out == [b'.'; 120], || "jb_answer_line wrote into a short buffer".to_string());
    whole("jb_answer_line of zeros", answer_line(&line[..length], &mut out), 0);
    judge(out[..60] == *zeros.as_bytes(), || "the answer to zeros is wrong".to_string());
    judge(out[60..] == [b'.'; 60], || "jb_answer_line wrote behind its answer".to_string());
    for bad in [0, length - 1, other] {
        whole("jb_answer_line of a wrong length", answer_line(&line[..bad], &mut out), 5);
        judge(out[..8] == *b"ff050000", || "the answer to a wrong length is wrong".to_string());
    }
    line[length - 8..length].copy_from_slice(b"ff800000");
    whole("jb_answer_line of an infinite angle", answer_line(&line[..length], &mut out), 3);
    let last = format!("8{}03{:04x}", digit as char, (length - 2) / 8 - 1);
    judge(out[..8] == *last.as_bytes(), || "the answer to an infinite angle is wrong".to_string());
}

fn main() {
    check_sin();
    check_cos();
    check_tanh();
    check_exp();
    check_atan2();
    check_sqrt();
    check_narrow();
    RING_CALLS.into_iter().for_each(check_fit_ring);
    check_tables();
    check_fit_disk();
    check_ring_line(b'1', 258, 386);
    check_ring_line(b'3', 386, 258);
    println!("{} checks of the header's functions", CHECKS.load(std::sync::atomic::Ordering::Relaxed));
}
