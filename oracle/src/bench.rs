//! Speed of our fits beside the Rust text, in one run. Only ratios are printed: they hold on a busy machine where
//! times do not.
//!
//! The frames are read beforehand; what is timed is the call of the fit alone. A repetition takes the frames block by
//! block and the engines by turns, keeps the least time of each block (what disturbs a turn only adds to it) and
//! adds these up. The table has the median of the repetitions' ratios, the least and the greatest.
//!
//! A new row is a line of GROUPS or PROGRAMS. A disk's fit is timed with the errors of its axes, which our call
//! answers too. Rings whose angles a stored table has are timed by `stored`, with the text's own way for its fixed ring.

use crate::checked::{answer, parse, Frame, Outcome};
use crate::generate::tables::FIXED;
use crate::generate::{Kind, List};
use crate::wire::{push_hex, to_bits};
use shapes::{Angles, Disk, Fit6, Fit9, Ring, TABLES};
use std::cell::RefCell;
use std::fs::File;
use std::hint::black_box;
use std::io;
use std::path::{Path, PathBuf};
use std::process::{Command, Stdio};
use std::time::Instant;
use support::Counts;

const REPETITIONS: usize = 9;

/// A ring fit as include/jengubool.h declares it.
type FitRing = unsafe extern "C" fn(
    samples: *const f32, samples_len: usize, angles: *const f32, angles_len: usize,
    fit: *mut f32, fit_len: usize, counts: *mut u32, counts_len: usize,
) -> u32;

#[link(name = "jengubool", kind = "static")]
extern "C" {
    // As include/jengubool.h declares them.
    fn jb_fit_ring(
        samples: *const f32, samples_len: usize, angles: *const f32, angles_len: usize,
        fit: *mut f32, fit_len: usize, counts: *mut u32, counts_len: usize,
    ) -> u32;
    fn jb_fit_ring24(
        samples: *const f32, samples_len: usize, angles: *const f32, angles_len: usize,
        fit: *mut f32, fit_len: usize, counts: *mut u32, counts_len: usize,
    ) -> u32;
    fn jb_ring_record(
        samples: *const f32, samples_len: usize, angles: *const f32, angles_len: usize,
        fit: *mut f32, fit_len: usize, counts: *mut u32, counts_len: usize,
    ) -> u32;
    fn jb_tables_fresh(tables: *mut f32);
    fn jb_tables_store(tables: *mut f32, angles: *const f32, angles_len: usize) -> u32;
    fn jb_tables_fit(
        tables: *const f32, samples: *const f32, samples_len: usize, angles: *const f32, angles_len: usize,
        fit: *mut f32, fit_len: usize, counts: *mut u32, counts_len: usize,
    ) -> u32;
    fn jb_fit_disk(
        val_energy: f32, base0: f32, base1: f32, xs: *const f32, xs_len: usize, ys: *const f32, ys_len: usize,
        vals: *const f32, vals_len: usize, angles: *const f32, angles_len: usize, weights: *const f32, weights_len: usize,
        fit: *mut f32, fit_len: usize, counts: *mut u32, counts_len: usize,
    ) -> u32;
}

#[inline(always)]
fn ours_by<const N: usize>(call: FitRing, ring: &Ring<N>) -> Fit6 {
    let (mut fit, mut counts) = ([0.0; 6], [0; 4]);
    // SAFETY: each pointer stands with the length of its array, and no two arrays overlap.
    let refusal = unsafe {
        call(
            ring.samples.as_ptr(), ring.samples.len(), ring.angles.as_ptr(), ring.angles.len(),
            fit.as_mut_ptr(), fit.len(), counts.as_mut_ptr(), counts.len(),
        )
    };
    assert_eq!(refusal, 0, "our fit refuses a frame that passed the checks");
    black_box(counts);
    fit
}

fn ours_ring(ring: &Ring<16>) -> Fit6 {
    ours_by(jb_fit_ring, ring)
}

fn ours_ring24(ring: &Ring<24>) -> Fit6 {
    ours_by(jb_fit_ring24, ring)
}

/// The words of a state that holds tables.
const TABLES_WORDS: usize = 14089;

fn fresh() -> Vec<f32> {
    let mut tables = vec![f32::NAN; TABLES_WORDS];
    // SAFETY: the array has the words that are asked for.
    unsafe { jb_tables_fresh(tables.as_mut_ptr()) };
    tables
}

fn store(tables: &mut [f32], angles: &Angles) {
    // SAFETY: as above, and the angles stand with their length.
    let refusal = unsafe { jb_tables_store(tables.as_mut_ptr(), angles.as_ptr(), angles.len()) };
    assert_eq!(refusal, 0, "a table is refused");
}

/// With its mean, as `jb_ring_record` answers; the direct way where there are no tables.
fn ours_record(tables: Option<&[f32]>, ring: &Ring<16>) -> Fit6 {
    let (mut fit, mut counts) = ([0.0; 7], [0; 4]);
    let (samples, angles) = (ring.samples.as_ptr(), ring.angles.as_ptr());
    // SAFETY: as above.
    let refusal = unsafe {
        match tables {
            Some(tables) => jb_tables_fit(tables.as_ptr(), samples, 16, angles, 16, fit.as_mut_ptr(), 7, counts.as_mut_ptr(), 4),
            None => jb_ring_record(samples, 16, angles, 16, fit.as_mut_ptr(), 7, counts.as_mut_ptr(), 4),
        }
    };
    assert_eq!(refusal, 0, "our fit refuses a frame that passed the checks");
    black_box((counts, fit[6]));
    std::array::from_fn(|i| fit[i])
}

/// The nine words of a disk's fit and the errors of its axes.
type Fit11 = [f32; 11];

fn ours_disk(disk: &Disk, base0: f32, base1: f32) -> Option<Fit11> {
    let (mut fit, mut counts) = ([0.0; 11], [0; 2]);
    let n = disk.count;
    let [xs, ys, vals, angles, weights] = &disk.runs;
    // SAFETY: as above; each run has at least `n` elements.
    let refusal = unsafe {
        jb_fit_disk(
            disk.val_energy, base0, base1, xs.as_ptr(), n, ys.as_ptr(), n, vals.as_ptr(), n, angles.as_ptr(), n,
            weights.as_ptr(), n, fit.as_mut_ptr(), fit.len(), counts.as_mut_ptr(), counts.len(),
        )
    };
    black_box(counts);
    assert!(refusal == 0 || refusal >> 16 == 4, "our fit refuses a frame that passed the checks");
    (refusal == 0).then_some(fit)
}

fn with_errors(fit: Option<Fit9>, errors: impl FnOnce(Fit9) -> [f32; 2]) -> Option<Fit11> {
    fit.map(|fit| {
        let mut all = [0.0; 11];
        all[..9].copy_from_slice(&fit);
        all[9..].copy_from_slice(&errors(fit));
        all
    })
}

fn libm_disk(disk: &Disk, base0: f32, base1: f32) -> Option<Fit11> {
    with_errors(libm::disk::search::best_disk_fit(disk, base0, base1), |fit| libm::disk::score::fit_std_errors(disk, fit))
}

fn plain_disk(disk: &Disk, base0: f32, base1: f32) -> Option<Fit11> {
    with_errors(plain::disk::search::best_disk_fit(disk, base0, base1), |fit| plain::disk::score::fit_std_errors(disk, fit))
}

struct Engine {
    ring: fn(&Ring<16>) -> Fit6,
    disk: fn(&Disk, f32, f32) -> Option<Fit11>,
    ring24: fn(&Ring<24>) -> Fit6,
}

/// Ours first; then those that it is held against.
const ENGINES: [Engine; 3] = [
    Engine { ring: ours_ring, disk: ours_disk, ring24: ours_ring24 },
    Engine { ring: libm::ring::robust::fit_ring, disk: libm_disk, ring24: libm24::ring::robust::fit_ring },
    Engine { ring: plain::ring::robust::fit_ring, disk: plain_disk, ring24: plain24::ring::robust::fit_ring },
];
const LIBM: usize = 1;
const PLAIN: usize = 2;

impl Engine {
    fn fit(&self, frame: &Frame) {
        match frame {
            Frame::Ring(ring) => drop(black_box((self.ring)(black_box(ring)))),
            Frame::Disk(disk, bases) => drop(black_box((self.disk)(black_box(disk), bases[0], bases[1]))),
            Frame::Ring24(ring) => drop(black_box((self.ring24)(black_box(ring)))),
        }
    }

    /// The words of the answer, a NaN as the one NaN.
    fn words(&self, frame: &Frame) -> Vec<u32> {
        let bits = |words: &[f32]| words.iter().map(|&x| to_bits(x)).collect();
        match frame {
            Frame::Ring(ring) => bits(&(self.ring)(ring)),
            Frame::Disk(disk, bases) => (self.disk)(disk, bases[0], bases[1]).map_or(Vec::new(), |words| bits(&words)),
            Frame::Ring24(ring) => bits(&(self.ring24)(ring)),
        }
    }
}

#[derive(Clone, Copy)]
struct Bars {
    bar: Option<f64>,
    aim: Option<f64>,
}

/// Frames of one kind that went the same way.
struct Group {
    name: &'static str,
    kind: Kind,
    holds: fn(&Counts) -> bool,
    /// The numbers of pixels, least and greatest; of a ring 0.
    pixels: [usize; 2],
    /// Beside the libm copy; the other copy has no bar.
    bars: Bars,
    frames: usize,
    block: usize,
    turns: usize,
}

const GROUPS: [Group; 10] = [
    clean("ring, clean", 16),
    two_starts("ring, two starts", 16),
    as_they_come("ring, as they come", 16),
    clean("ring24, clean", 24),
    two_starts("ring24, two starts", 24),
    as_they_come("ring24, as they come", 24),
    disks("disk, 50 pixels", [45, 55], None, None),
    disks("disk, 100 pixels", [90, 110], None, None),
    disks("disk, 200 pixels", [185, 215], Some(0.18), Some(0.16)),
    disks("disk, 320 pixels", [300, 320], None, None),
];

const fn clean(name: &'static str, points: usize) -> Group {
    let bars = Bars { bar: Some(0.31), aim: Some(0.28) };
    let holds = |counts: &Counts| !counts.suspicious;
    Group { name, kind: Kind::Rings(points), holds, pixels: [0, 0], bars, frames: 2000, block: 100, turns: 12 }
}

const fn two_starts(name: &'static str, points: usize) -> Group {
    let bars = Bars { bar: Some(0.27), aim: Some(0.22) };
    let holds = |counts: &Counts| counts.starts == 2;
    Group { name, kind: Kind::Rings(points), holds, pixels: [0, 0], bars, frames: 1000, block: 10, turns: 10 }
}

const fn as_they_come(name: &'static str, points: usize) -> Group {
    let bars = Bars { bar: Some(0.28), aim: None };
    Group { name, kind: Kind::Rings(points), holds: |_| true, pixels: [0, 0], bars, frames: 1000, block: 20, turns: 10 }
}

const fn disks(name: &'static str, pixels: [usize; 2], bar: Option<f64>, aim: Option<f64>) -> Group {
    Group { name, kind: Kind::Disks, holds: |_| true, pixels, bars: Bars { bar, aim }, frames: 120, block: 4, turns: 4 }
}

/// A whole process on the lines of the list, beside one of the oracle's.
struct Program {
    kind: Kind,
    against: &'static str,
    command: &'static str,
    bars: Bars,
}

const PROGRAMS: [Program; 6] = [
    Program { kind: Kind::Rings(16), against: "oracle frames", command: "frames", bars: Bars { bar: Some(0.8), aim: None } },
    Program { kind: Kind::Rings(16), against: "oracle once", command: "once", bars: Bars { bar: Some(0.27), aim: None } },
    Program { kind: Kind::Rings(24), against: "oracle frames", command: "frames", bars: Bars { bar: Some(0.8), aim: None } },
    Program { kind: Kind::Rings(24), against: "oracle once", command: "once", bars: Bars { bar: Some(0.27), aim: None } },
    Program { kind: Kind::Disks, against: "oracle frames", command: "frames", bars: Bars { bar: Some(0.8), aim: None } },
    Program { kind: Kind::Disks, against: "oracle once", command: "once", bars: Bars { bar: None, aim: None } },
];
const PROGRAM_TURNS: usize = 4;

/// Prints the table. False where answers differ that must not.
pub fn bench(list: &List, program: Option<&str>) -> Result<bool, String> {
    let mut table = Table::default();
    println!("{:<20} {:<26} {:>7}   {:<18} {:>5} {:>5}", "what", "beside", "ratio", "least..greatest", "bar", "aim");
    for group in GROUPS.iter().filter(|group| group.kind == list.kind) {
        let frames = frames_of(group, list);
        if frames.is_empty() {
            return Err(format!("no frame of this list is for the row {}", group.name));
        }
        table.fits(group, &frames);
    }
    if list.kind == Kind::Rings(16) {
        table.stored(list)?;
    }
    if let Some(program) = program {
        let lines = Lines::write(list).map_err(|error| format!("the file of lines: {error}"))?;
        for row in PROGRAMS.iter().filter(|row| row.kind == list.kind) {
            table.program(row, program, &lines).map_err(|error| format!("{program}: {error}"))?;
        }
    }
    if table.notes.is_empty() {
        return Err("there is no row for this kind of line yet".to_string());
    }
    println!("median of {REPETITIONS} repetitions, by turns in one run; below 1 is faster than the Rust");
    table.notes.iter().for_each(|note| println!("{note}"));
    table.growth();
    match table.missed.is_empty() {
        true => println!("all bars met"),
        false => println!("missed: {}", table.missed.join(", ")),
    }
    Ok(table.right)
}

fn frames_of(group: &Group, list: &List) -> Vec<Frame> {
    let lines = (0..list.count).map(|index| list.line(index));
    let sized = lines.filter(|line| matches!(pixels_of(line), Some(n) if group.pixels[0] <= n && n <= group.pixels[1]));
    let held = sized.filter(|line| matches!(answer(line).outcome, Outcome::Fit(_, counts, _) if (group.holds)(&counts)));
    held.filter_map(|line| parse(&line).ok()).take(group.frames).collect()
}

type Fitting = Box<dyn Fn(&Ring<16>) -> Fit6>;

/// The ring of a line, if it has these angles and makes two starts.
fn two_starts_at(angles: &Angles, line: &[u8]) -> Option<Ring<16>> {
    match (parse(line).ok()?, answer(line).outcome) {
        (Frame::Ring(ring), Outcome::Fit(_, counts, _)) if ring.angles == *angles && counts.starts == 2 => Some(ring),
        _ => None,
    }
}

fn pixels_of(line: &[u8]) -> Option<usize> {
    match parse(line).ok()? {
        Frame::Ring(_) | Frame::Ring24(_) => Some(0),
        Frame::Disk(disk, _) => Some(disk.count),
    }
}

struct Table {
    notes: Vec<String>,
    /// Seconds a frame of each engine, of the groups of disks.
    costs: Vec<[f64; ENGINES.len()]>,
    missed: Vec<String>,
    right: bool,
}

impl Default for Table {
    fn default() -> Self {
        Self { notes: Vec::new(), costs: Vec::new(), missed: Vec::new(), right: true }
    }
}

impl Table {
    fn fits(&mut self, group: &Group, frames: &[Frame]) {
        // The speed of a wrong answer is worth nothing.
        let all: Vec<_> = frames.iter().map(|frame| ENGINES.map(|engine| engine.words(frame))).collect();
        let differing = |other: usize| all.iter().filter(|words| words[0] != words[other]).count();
        self.right &= differing(PLAIN) == 0;
        self.notes.push(format!(
            "{}: {} frames; answers that differ from the text with our five functions: {}, with libm: {}",
            group.name, frames.len(), differing(PLAIN), differing(LIBM),
        ));
        let times = repetitions(frames, group.block, group.turns, &ENGINES, |engine, frame| engine.fit(frame));
        if group.pixels[0] > 0 {
            let least = |engine: usize| times.iter().map(|of| of[engine]).fold(f64::INFINITY, f64::min) / frames.len() as f64;
            self.costs.push(std::array::from_fn(least));
        }
        let ratios = |other: usize| times.iter().map(|of| of[0] / of[other]).collect::<Vec<_>>();
        self.row(group.name, "Rust, its own libm", ratios(LIBM), group.bars);
        self.row(group.name, "Rust, our five functions", ratios(PLAIN), Bars { bar: None, aim: None });
    }

    /// Rings of pixels with two starts beside a table of their angles, and what it costs to store one. The Rust has its models
    /// built beforehand and its ring's angles at hand, which it otherwise works out at each fit: it is timed at its best.
    fn stored(&mut self, list: &List) -> Result<(), String> {
        let angles = FIXED[0].ring(0, 0).angles;
        let rings: Vec<_> = (0..list.count).filter_map(|index| two_starts_at(&angles, &list.line(index))).take(1000).collect();
        if rings.is_empty() {
            return Err("no ring of this list is for the rows of stored tables".to_string());
        }
        libm_std::ring::seed::set_ring(&angles);
        plain_std::ring::seed::set_ring(&angles);
        let mut tables = fresh();
        store(&mut tables, &angles);
        let engines: [Fitting; 4] = [
            Box::new(move |ring| ours_record(Some(&tables), ring)),
            Box::new(libm_std::ring::robust::fit_ring),
            Box::new(plain_std::ring::robust::fit_ring),
            Box::new(|ring| ours_record(None, ring)),
        ];
        self.stored_answers(&rings, &engines);
        let times = repetitions(&rings, 10, 10, &engines, |fit, ring| {
            black_box(fit(black_box(ring)));
        });
        let ratios = |other: usize| times.iter().map(|of| of[0] / of[other]).collect::<Vec<_>>();
        let none = Bars { bar: None, aim: None };
        self.row("ring, by a table", "Rust, its own libm", ratios(LIBM), Bars { bar: Some(0.5), aim: None });
        self.row("ring, by a table", "Rust, our five functions", ratios(PLAIN), none);
        self.row("ring, by a table", "ours, the direct way", ratios(3), none);
        self.storing(&rings, &angles);
        Ok(())
    }

    fn stored_answers(&mut self, rings: &[Ring<16>], engines: &[Fitting; 4]) {
        let words = |ring: &Ring<16>| engines.each_ref().map(|fit| fit(ring).map(to_bits));
        let all: Vec<_> = rings.iter().map(words).collect();
        let differing = |other: usize| all.iter().filter(|words| words[0] != words[other]).count();
        self.right &= differing(PLAIN) == 0;
        self.notes.push(format!(
            "ring, by a table: {} frames; answers that differ from the text with its models and our five functions: {}, with libm: {}, \
             from our direct way: {}",
            rings.len(), differing(PLAIN), differing(LIBM), differing(3),
        ));
    }

    /// As many tables as are held, beside as many direct fits.
    fn storing(&mut self, rings: &[Ring<16>], angles: &Angles) {
        let tables = RefCell::new(fresh());
        let fill = |_: &Ring<16>| {
            let mut tables = tables.borrow_mut();
            // SAFETY: as of `fresh`.
            unsafe { jb_tables_fresh(tables.as_mut_ptr()) };
            for _ in 0..TABLES {
                store(&mut tables, black_box(angles));
            }
        };
        let fit = |ring: &Ring<16>| {
            for _ in 0..TABLES {
                black_box(ours_record(None, black_box(ring)));
            }
        };
        let engines: [&dyn Fn(&Ring<16>); 2] = [&fill, &fit];
        let times = repetitions(&rings[..rings.len().min(200)], 10, 4, &engines, |work, ring| work(ring));
        let ratios = times.iter().map(|of| of[0] / of[1]).collect();
        self.row("storing a table", "ours, one direct fit", ratios, Bars { bar: None, aim: None });
    }

    fn program(&mut self, row: &Program, program: &str, lines: &Lines) -> io::Result<()> {
        let name = Path::new(program).file_name().map_or(program.into(), |name| name.to_string_lossy());
        let ours = || Command::new(program);
        let theirs = || std::env::current_exe().map(|oracle| {
            let mut command = Command::new(oracle);
            command.arg(row.command);
            command
        });
        let bytes = [lines.answers(ours())?, lines.answers(theirs()?)?];
        let lines_differ = bytes[0].split(|&b| b == b'\n').zip(bytes[1].split(|&b| b == b'\n')).filter(|(a, b)| a != b).count();
        // `once` has no counts and the platform's functions: there a difference is no fault.
        self.right &= row.command == "once" || (lines_differ == 0 && bytes[0].len() == bytes[1].len());
        if row.command != "once" {
            self.notes.push(format!("{name}: {} lines, {lines_differ} answers differ from {}", lines.count, row.against));
        }
        let mut ratios = Vec::new();
        for _ in 0..REPETITIONS {
            let mut least = [f64::INFINITY; 2];
            for _ in 0..PROGRAM_TURNS {
                least[0] = least[0].min(lines.seconds(ours())?);
                least[1] = least[1].min(lines.seconds(theirs()?)?);
            }
            ratios.push(least[0] / least[1]);
        }
        self.row(&name, row.against, ratios, row.bars);
        Ok(())
    }

    /// How the cost of a disk grows with its pixels, each engine beside its own at the first group.
    fn growth(&self) {
        let names = ["ours", "Rust, its own libm", "Rust, our five functions"];
        for (engine, name) in names.iter().enumerate().filter(|_| !self.costs.is_empty()) {
            let grown: Vec<_> = self.costs.iter().map(|cost| format!("{:.2}", cost[engine] / self.costs[0][engine])).collect();
            println!("cost at 50, 100, 200 and 320 pixels, {name}: {}", grown.join(" "));
        }
    }

    fn row(&mut self, name: &str, against: &str, mut ratios: Vec<f64>, bars: Bars) {
        ratios.sort_by(f64::total_cmp);
        let (least, median, most) = (ratios[0], ratios[ratios.len() / 2], ratios[ratios.len() - 1]);
        let show = |bar: Option<f64>| bar.map_or(String::new(), |bar| bar.to_string());
        let met = bars.bar.map_or(true, |bar| median <= bar);
        println!(
            "{name:<20} {against:<26} {median:>7.3}   {:<18} {:>5} {:>5}{}",
            format!("{least:.3}..{most:.3}"), show(bars.bar), show(bars.aim), if met { "" } else { "  MISSED" },
        );
        if !met {
            self.missed.push(name.to_string());
        }
    }
}

/// Seconds of each engine for all frames, of each repetition.
fn repetitions<F, E, const N: usize>(frames: &[F], block: usize, turns: usize, engines: &[E; N], fit: impl Fn(&E, &F)) -> Vec<[f64; N]> {
    let once = || repetition(frames, block, turns, engines, &fit);
    once(); // warms caches and the clock of the core
    (0..REPETITIONS).map(|_| once()).collect()
}

fn repetition<F, E, const N: usize>(frames: &[F], block: usize, turns: usize, engines: &[E; N], fit: impl Fn(&E, &F)) -> [f64; N] {
    let mut sums = [0.0; N];
    for block in frames.chunks(block) {
        let mut least = [f64::INFINITY; N];
        for _ in 0..turns {
            for (engine, least) in engines.iter().zip(&mut least) {
                let start = Instant::now();
                block.iter().for_each(|frame| fit(engine, frame));
                *least = least.min(start.elapsed().as_secs_f64());
            }
        }
        sums.iter_mut().zip(least).for_each(|(sum, least)| *sum += least);
    }
    sums
}

/// The answer of a program that fits once with the platform's functions, as the Rust's users would write it: `frames`
/// fits twice, to compare the counted copy with the plain one. Counts of starts and updates stay 0.
pub fn once(line: &[u8]) -> Vec<u8> {
    let (head, words, tail): (&[u8], Vec<f32>, u32) = match parse(line) {
        Ok(Frame::Ring(ring)) => (b"8100", libm::ring::robust::fit_ring(&ring).to_vec(), 8),
        Ok(Frame::Disk(disk, bases)) => match libm_disk(&disk, bases[0], bases[1]) {
            Some(fit) => (b"8200", fit.to_vec(), 6),
            None => return b"82040000".to_vec(),
        },
        Ok(Frame::Ring24(ring)) => (b"8300", libm24::ring::robust::fit_ring(&ring).to_vec(), 8),
        Err(_) => return answer(line).line,
    };
    let mut text = head.to_vec();
    for x in words {
        push_hex(&mut text, to_bits(x), 8);
    }
    push_hex(&mut text, 0, tail);
    text
}

/// The lines of a list in a file, which both programs read.
struct Lines {
    path: PathBuf,
    count: u64,
}

impl Lines {
    fn write(list: &List) -> io::Result<Self> {
        let path = std::env::temp_dir().join(format!("oracle-bench-{}", std::process::id()));
        let mut text = Vec::new();
        // A disk costs as much as a hundred rings.
        let count = if list.kind == Kind::Disks { list.count.min(400) } else { list.count };
        for index in 0..count {
            text.extend(list.line(index));
            text.push(b'\n');
        }
        std::fs::write(&path, text)?;
        Ok(Self { path, count })
    }

    fn answers(&self, mut command: Command) -> io::Result<Vec<u8>> {
        let output = command.stdin(File::open(&self.path)?).stderr(Stdio::inherit()).output()?;
        output.status.success().then_some(output.stdout).ok_or(io::Error::other("ended badly"))
    }

    /// Of the whole process, its output thrown away.
    fn seconds(&self, mut command: Command) -> io::Result<f64> {
        command.stdin(File::open(&self.path)?).stdout(Stdio::null());
        let start = Instant::now();
        let status = command.status()?;
        let seconds = start.elapsed().as_secs_f64();
        status.success().then_some(seconds).ok_or(io::Error::other("ended badly"))
    }
}

impl Drop for Lines {
    fn drop(&mut self) {
        let _ = std::fs::remove_file(&self.path);
    }
}
