//! Function lines: arguments for each number, everyday ones, wild ones, and ones beside the thresholds.

use super::disks::{disk, Made};
use super::frames::{broken, line as text_line};
use super::random::Random;
use super::rings::{faint, ring};
use super::tables;
use super::values::{drawn, limit, nudged, taste, word, Taste, DEGREE};
use shapes::{ANGLES, PAIRED_ANGLES, PAIRS, PIXELS};
use std::f64::consts::PI;

const PI_WORD: u32 = 0x4049_0fdb;
const TAU_WORD: u32 = 0x40c9_0fdb;

pub fn line(random: &mut Random, number: u8) -> Vec<u8> {
    let taste = taste(random);
    let mut maker = Maker { random, taste, words: Vec::new() };
    maker.arguments(number);
    let words = std::mem::take(&mut maker.words);
    let text = text_line(&[b'0' + number / 10, b'0' + number % 10], &words);
    if random.percent(1) {
        damaged(random, number, words, text)
    } else {
        text
    }
}

/// A broken line, or one whose words are whole but wrong: one too many, one too few, a count that is not so.
fn damaged(random: &mut Random, number: u8, mut words: Vec<u32>, text: Vec<u8>) -> Vec<u8> {
    match random.below(4) {
        0 => words.push(limit(random)),
        1 => drop(words.pop()),
        2 if !words.is_empty() => {
            let at = random.below(words.len().min(3));
            words[at] = random.pick(&[0, 1, 2, 5, 24, 25, 64, 65, 276, 277, 320, 321, 0x1_0000, 0xffff_ffff]);
        }
        _ => return broken(random, text),
    }
    text_line(&[b'0' + number / 10, b'0' + number % 10], &words)
}

/// Between two lines, as geometry.rs has it, so that a limit can stand exactly there.
fn separation(a: f32, b: f32) -> f32 {
    let half = PI as f32 * 0.5;
    ((a - b + half).rem_euclid(PI as f32) - half).abs()
}

/// Twice its square is, rounded, exactly the f32 1e-6: the least spread of a seed.
const HALF_MILLIONTH: u32 = 0x3a39_5d22;
/// Twice the square of the first and of the second add up, rounded, to exactly the f32 1e-9: the least of a trial.
const HALF_BILLIONTH: [u32; 2] = [0x3686_37b4, 0x37b8_8ca4];
const ONE: u32 = 0x3f80_0000;

/// `count` words that add up to 0: each of `parts` and its opposite in turn, one perhaps a bit aside, then zeros.
fn opposites(random: &mut Random, parts: &[u32], count: usize) -> Vec<u32> {
    let mut words = Vec::new();
    for &part in parts {
        let near = nudged(random, part);
        words.extend([near, near ^ 0x8000_0000]);
    }
    words.resize(count, 0);
    words
}

/// Collects the words of one line.
struct Maker<'a> {
    random: &'a mut Random,
    taste: Taste,
    words: Vec<u32>,
}

impl Maker<'_> {
    fn arguments(&mut self, number: u8) {
        match number {
            10..=17 => self.numbers(number),
            20..=24 => self.five(number),
            30..=35 => self.lines(if number == 30 { 1 } else if number == 34 { 4 } else { 2 }),
            40..=46 => self.solving(number),
            50..=54 => self.seeding(number),
            60..=66 => self.ring_fit(number),
            67..=69 => self.words = tables::arguments(self.random, self.taste, number),
            70..=77 => self.candidates(number),
            80..=83 => self.scoring(number),
            90..=95 => self.searching(number),
            other => panic!("function lines have no number {other}"),
        }
    }

    fn float(&mut self, low: f64, high: f64) {
        let word = drawn(self.random, self.taste, low, high);
        self.words.push(word);
    }

    fn floats(&mut self, count: usize, low: f64, high: f64) {
        for _ in 0..count {
            self.float(low, high);
        }
    }

    /// An angle; one in four stands beside a multiple of a quarter, a 15th or a 72nd of PI.
    fn angle(&mut self) {
        if !self.random.percent(25) {
            return self.float(-7.0, 7.0);
        }
        let part = self.random.pick(&[1.0, 2.0, 4.0, 15.0, 72.0, 180.0]);
        let steps = self.random.between(0, 3 * part as usize) as f64;
        let exact = word((steps - part) * PI / part);
        let near = nudged(self.random, exact);
        self.words.push(near);
    }

    /// Two angles; half of the time a threshold of the text apart.
    fn two_angles(&mut self) {
        self.angle();
        if self.random.percent(50) {
            return self.angle();
        }
        let first = f32::from_bits(*self.words.last().expect("an angle"));
        let apart = self.random.pick(&[0.0, 1.0, 4.0, 12.0, 65.0, 89.5, 90.0, 115.0, 168.0, 180.0]) * DEGREE;
        let second = if self.random.percent(50) { first + apart } else { first - apart };
        let near = nudged(self.random, second.to_bits());
        self.words.push(near);
    }

    fn bool(&mut self) -> bool {
        let truth = self.random.percent(70);
        self.words.push(u32::from(truth));
        truth
    }

    fn numbers(&mut self, number: u8) {
        match number {
            10 => {
                self.angle();
                let divisor = self.random.pick(&[PI_WORD, TAU_WORD]);
                self.words.push(if self.random.percent(99) { divisor } else { divisor ^ 1 });
            }
            11 | 12 | 15 => {
                self.float(-8.0, 8.0);
                self.twin();
            }
            13 => self.float(0.0, 1e6),
            14 => self.double(),
            16 => self.float(-360.0, 360.0),
            _ => self.angle(),
        }
    }

    /// A second word: another, the same, its neighbour or its opposite.
    fn twin(&mut self) {
        let first = *self.words.last().expect("a first word");
        match self.random.below(4) {
            0 => {
                let near = nudged(self.random, first);
                self.words.push(near);
            }
            1 => self.words.push(first ^ 0x8000_0000),
            _ => self.float(-8.0, 8.0),
        }
    }

    /// An f64 on, or beside, the middle between two f32, subnormal ones and the largest included.
    fn double(&mut self) {
        let bits = if self.random.percent(20) {
            self.random.next()
        } else {
            let near = f64::from(f32::from_bits(drawn(self.random, self.taste, -1e3, 1e3))).to_bits();
            let tail = self.random.pick(&[0, 0x1000_0000, 0x0fff_ffff, 0x1000_0001, 0x1fff_ffff, 1, 0x0800_0000]);
            let smaller = if self.random.percent(20) { self.random.below(160) as u64 } else { 0 };
            near.wrapping_add(tail).wrapping_sub(smaller << 52)
        };
        self.words.extend([(bits >> 32) as u32, bits as u32]);
    }

    fn five(&mut self, number: u8) {
        match number {
            20 | 21 if self.random.percent(50) => self.angle(),
            20 | 21 => self.float(-80.0, 80.0),
            22 => self.float(-11.0, 11.0),
            23 => self.float(-95.0, 3.0),
            _ => {
                self.float(-100.0, 100.0);
                self.twin();
            }
        }
    }

    fn lines(&mut self, count: usize) {
        if count == 1 {
            return self.angle();
        }
        for _ in 0..count / 2 {
            self.two_angles();
        }
    }

    fn solving(&mut self, number: u8) {
        match number {
            40 => {
                self.matrix();
                self.floats(4, -50.0, 50.0);
            }
            41 | 46 => {
                self.matrix();
                self.float(-1.0, 1e4);
                let n = if self.random.percent(30) { self.random.between(0, 6) } else { self.random.between(0, PIXELS) };
                self.words.push(n as u32);
            }
            42 => self.float(-1.0, 1e4),
            43 => {
                self.two_angles();
                self.float(-50.0, 50.0);
            }
            44 => self.angle(),
            _ => {
                self.ring(16);
                self.two_angles();
                self.floats(2, -100.0, 200.0);
                self.float(0.0, 1e4);
            }
        }
    }

    /// A normal matrix of made-up columns, often with zeros, equal rows or a wild entry.
    fn matrix(&mut self) {
        if self.taste != Taste::Everyday {
            return self.sparse_matrix();
        }
        let rows = self.random.between(2, 8);
        let columns: Vec<[f64; 4]> = (0..rows)
            .map(|_| [1.0, self.random.range(-1.0, 1.0), self.random.range(-99.0, 99.0), self.random.range(-99.0, 99.0)])
            .collect();
        for k in 0..4 {
            for l in 0..4 {
                self.words.push(word(columns.iter().map(|row| row[k] * row[l]).sum()));
            }
        }
    }

    /// Many zeros, so that factors of 0 are skipped and pivots are sought below the diagonal.
    fn sparse_matrix(&mut self) {
        let zeros = self.random.pick(&[0, 40, 70]);
        for place in 0..16 {
            if place % 5 == 0 && self.random.percent(30) {
                let small = word(self.random.pick(&[1e-20, -1e-20, 1e-21, 1.0]));
                let near = nudged(self.random, small);
                self.words.push(near);
            } else if self.random.percent(zeros) {
                self.words.push(0);
            } else {
                self.float(-9.0, 9.0);
            }
        }
    }

    fn ring(&mut self, points: usize) {
        match self.taste {
            Taste::Bits | Taste::Limits | Taste::Middling if self.random.percent(60) => self.floats(2 * points, -8.0, 8.0),
            _ => {
                let mut made = ring(self.random, points);
                if self.taste != Taste::Everyday {
                    let at = self.random.below(made.len());
                    made[at] = drawn(self.random, self.taste, -8.0, 8.0);
                }
                self.words.extend(made);
            }
        }
    }

    fn seeding(&mut self, number: u8) {
        match number {
            50 => {
                self.ring(16);
                self.float(0.0, 255.0);
            }
            51 | 52 => self.two_angles(),
            53 => {
                self.floats(16, -100.0, 100.0);
                self.float(0.0, 1e5);
                self.float(0.0, 255.0);
                self.seed_rows();
                self.two_angles();
            }
            _ => {
                if self.bool() {
                    self.seed();
                }
                let held = self.words.last().copied().expect("the tag");
                self.seed();
                if self.random.percent(30) {
                    *self.words.last_mut().expect("rms") = nudged(self.random, held);
                }
            }
        }
    }

    /// Two rows; constant ones among them, whose spread is too small for a seed.
    fn seed_rows(&mut self) {
        if self.random.percent(4) {
            let row = opposites(self.random, &[HALF_MILLIONTH], 16);
            self.words.extend(row.into_iter().chain([ONE; 16]));
            return;
        }
        if !self.random.percent(15) {
            return self.floats(32, -1.0, 1.0);
        }
        for _ in 0..2 {
            let value = self.random.range(-1.0, 1.0);
            for _ in 0..16 {
                let spread = 1e-4 * self.random.pick(&[0.0, 1.0, 10.0]);
                self.words.push(word(value + spread * self.random.unit()));
            }
        }
    }

    fn seed(&mut self) {
        self.two_angles();
        self.float(0.0, 255.0);
        self.float(-100.0, 100.0);
        self.float(0.0, 60.0);
    }

    fn ring_fit(&mut self, number: u8) {
        match number {
            61 | 62 => return self.suspect(),
            63 if self.random.percent(4) => return self.faint_ring(),
            65 => return self.ring(24),
            66 if self.taste == Taste::Everyday && self.random.percent(30) => {
                let made = faint(self.random, 16);
                self.words.extend(made);
            }
            _ => self.ring(16),
        }
        match number {
            63 => {
                self.float(0.0, 255.0);
                self.float(0.0, 1e4);
            }
            64 => {
                self.float(0.0, 1e4);
                if self.bool() {
                    self.seed();
                }
            }
            _ => {}
        }
    }

    /// A ring whose sum of squares about 0 is at its limit, and a variance at its own.
    fn faint_ring(&mut self) {
        let made = ring(self.random, 16);
        let samples = opposites(self.random, &[HALF_MILLIONTH], 16);
        self.words.extend(samples.iter().chain(&made[16..]));
        let variance = nudged(self.random, word(1e-6));
        self.words.extend([0, variance]);
    }

    /// A ring fit beside the triggers: amplitude 1, relative rms 0.12, separation 65 degrees.
    fn suspect(&mut self) {
        let amp = if self.random.percent(30) { 1.0 } else { self.random.range(0.5, 100.0) };
        let near = nudged(self.random, word(amp));
        if self.taste == Taste::Everyday {
            self.words.push(near);
        } else {
            self.float(0.0, 100.0);
        }
        self.two_angles();
        self.floats(2, 0.0, 3.2);
        if self.random.percent(50) {
            let rms = f32::from_bits(self.words[self.words.len() - 5]) * 0.12;
            let near = nudged(self.random, rms.to_bits());
            self.words.push(near);
        } else {
            self.float(0.0, 20.0);
        }
    }

    /// A set of at most `most` angles, often full, with near twins.
    fn set(&mut self, most: usize) -> usize {
        let count = match self.random.below(4) {
            0 => self.random.between(0, 3),
            1 => most,
            _ => self.random.between(0, most),
        };
        self.words.push(count as u32);
        for at in 0..count {
            if at > 0 && self.random.percent(10) {
                let other = *self.words.last().expect("an angle");
                let near = nudged(self.random, other);
                self.words.push(near);
            } else if self.random.percent(80) {
                self.float(0.0, PI);
            } else {
                self.angle();
            }
        }
        count
    }

    fn pair(&mut self, most: usize) {
        for _ in 0..2 {
            let index = if self.random.percent(95) { self.random.below(most.max(1)) as u32 } else { self.random.bits() };
            self.words.push(index);
        }
    }

    /// `count` edge sums with ties among them.
    fn sums(&mut self, count: usize) {
        for at in 0..count {
            if at > 0 && self.random.percent(25) {
                let other = self.words[self.words.len() - 1 - self.random.below(at)];
                self.words.push(other);
            } else {
                self.float(0.0, 500.0);
            }
        }
    }

    fn candidates(&mut self, number: u8) {
        match number {
            70 => self.unique_angle(),
            71 => {
                self.disk();
                self.two_angles();
            }
            72 => {
                self.set(ANGLES);
                self.two_angles();
            }
            73 => {
                let count = self.set(ANGLES);
                self.sums(count);
            }
            74 => {
                self.set(ANGLES);
                self.angle();
            }
            75 => {
                if self.bool() {
                    self.pair(3);
                }
                self.pair(3);
            }
            76 => self.pool_of_pairs(),
            _ => {
                self.floats(2, 0.0, 100.0);
                self.float(0.0, 200.0);
            }
        }
    }

    /// An angle and a least separation; often exactly that of the nearest held angle, which decides.
    fn unique_angle(&mut self) {
        let count = self.set(ANGLES);
        self.angle();
        let angle = f32::from_bits(*self.words.last().expect("an angle")).rem_euclid(PI as f32);
        let nearest = self.words[1..=count].iter().fold(f32::INFINITY, |least, &held| {
            least.min(separation(angle, f32::from_bits(held)))
        });
        if nearest.is_finite() && self.random.percent(40) {
            let near = nudged(self.random, nearest.to_bits());
            self.words.push(near);
        } else if self.taste == Taste::Everyday {
            let apart = self.random.pick(&[1.0, 4.0]) * DEGREE;
            self.words.push(apart.to_bits());
        } else {
            self.float(0.0, 0.1);
        }
    }

    fn pool_of_pairs(&mut self) {
        let count = self.set(PAIRED_ANGLES);
        self.sums(count);
        self.float(0.0, 900.0);
        for _ in 0..2 {
            if self.bool() {
                self.pair(count.min(6));
            }
        }
    }

    /// DISK, mostly of few pixels, and what it was made from.
    fn disk(&mut self) -> Made {
        let most = self.random.pick(&[0, 3, 4, 5, 8, 12, 24, 24, 40, 60, 60, PIXELS]);
        let mut made = disk(self.random, most.max(1));
        if most == 0 {
            made.runs = Default::default();
        }
        let count = made.runs[0].len();
        if self.random.percent(6) {
            made.val_energy = nudged(self.random, word(1e-9));
        }
        self.words.extend([count as u32, made.val_energy]);
        let wild = self.taste != Taste::Everyday && self.random.percent(50);
        for run in &made.runs {
            if wild {
                self.floats(count, -8.0, 8.0);
            } else {
                self.words.extend(run);
            }
        }
        if !wild && count > 0 && self.taste != Taste::Everyday {
            let at = self.words.len() - 1 - self.random.below(5 * count);
            self.words[at] = drawn(self.random, self.taste, -8.0, 8.0);
        }
        made
    }

    /// A disk fit: small objectives, since margins of 1e-9 count only there.
    fn fit(&mut self) {
        self.two_angles();
        let width = word(self.random.pick(&[0.35, 0.7, 1.4, 2.8]));
        self.words.push(width);
        self.floats(2, 0.0, 60.0);
        let scale = self.random.pick(&[1e-9, 1e-8, 1e-3, 1.0]);
        self.float(0.0, scale);
        self.float(0.0, 1.0);
        self.float(0.0, scale);
        self.float(-scale, scale);
    }

    /// A fit of the disk just written: near what it was made from, or any.
    fn fit_of(&mut self, made: &Made) {
        if self.random.percent(30) {
            return self.fit();
        }
        let [theta1, theta2, width, amp] = made.truth;
        let spread = self.random.pick(&[0.0, 0.01, 0.1]);
        let amp = amp.abs() * (1.0 + spread * self.random.noise());
        self.words.extend([theta1 + spread, theta2, width, amp].map(word));
        self.floats(4, 0.0, 1.0);
        // An objective that its own trials can beat, or not.
        self.float(-1.0, 2.0);
    }

    /// A fit that ties with the one written last in some of the fields that are compared.
    fn rival(&mut self) {
        let start = self.words.len();
        self.fit();
        // objective, rel_rms, edge_score, width, theta1, theta2: the order of the comparison.
        let order = [8, 5, 7, 2, 0, 1];
        for &field in &order[..self.random.between(0, 6)] {
            let held = self.words[start - 9 + field];
            self.words[start + field] = if self.random.percent(80) { held } else { nudged(self.random, held) };
        }
    }

    fn scoring(&mut self, number: u8) {
        match number {
            80 => {
                let made = self.disk();
                self.bases(made.bases);
                let width = word(self.random.pick(&[0.35, 0.7, 1.4, 2.8]));
                self.words.push(width);
                self.float(0.0, 1.0);
                self.trial_rows(made.runs[0].len());
            }
            81 => {
                self.disk();
                self.set(ANGLES);
            }
            82 => {
                self.fit();
                self.rival();
            }
            _ => {
                let made = self.disk();
                self.fit_of(&made);
            }
        }
    }

    fn trial_rows(&mut self, count: usize) {
        if count < 4 || !self.random.percent(8) {
            return self.floats(2 * count, -1.0, 1.0);
        }
        let row = opposites(self.random, &HALF_BILLIONTH, count);
        self.words.extend(row);
        self.words.extend(std::iter::repeat(ONE).take(count));
    }

    /// The bases made with the disk, or any. One that is not finite leaves fewer than 24 allowed pairs.
    fn bases(&mut self, made: [u32; 2]) {
        if self.random.percent(6) {
            let other = self.random.pick(&[made[1], 0x7f80_0000, 0x7fc0_0000]);
            self.words.extend([0x7f80_0000, other]);
        } else if self.random.percent(60) {
            self.words.extend(made);
        } else {
            self.two_angles();
        }
    }

    fn searching(&mut self, number: u8) {
        match number {
            91 => return self.pool(),
            92 => return self.leaders(),
            _ => {}
        }
        let made = self.disk();
        match number {
            90 => self.bases(made.bases),
            93 => self.fit_of(&made),
            95 => {
                self.angle();
                let step = self.random.pick(&[1.0, 0.5, 0.25]) * DEGREE;
                self.words.extend([-step, 0.0, step].map(f32::to_bits));
                self.float(0.3, 3.0);
            }
            _ => {}
        }
    }

    fn leaders(&mut self) {
        for _ in 0..2 {
            if self.bool() {
                self.fit();
            }
        }
        if self.words.len() > 9 {
            self.rival();
        } else {
            self.fit();
        }
    }

    /// A pool in any order, with ties and NaN; one in a hundred repeats a pair and is no pool.
    fn pool(&mut self) {
        let count = match self.random.below(4) {
            0 => self.random.between(0, 3),
            1 => self.random.between(22, 26),
            2 => PAIRS,
            _ => self.random.between(0, PAIRS),
        };
        let mut pairs: Vec<(u32, u32)> = (0..24).flat_map(|i| (i + 1..24).map(move |j| (i, j))).collect();
        let repeats = self.random.percent(1);
        let kinds = self.random.between(1, 40);
        self.words.push(count as u32);
        for _ in 0..count {
            let at = self.random.below(pairs.len());
            let (i, j) = if repeats { pairs[at] } else { pairs.swap_remove(at) };
            self.words.extend([i, j]);
            if self.random.percent(30) {
                self.float(0.0, 2.0);
            } else {
                let score = word(self.random.below(kinds) as f64 * 0.125);
                self.words.push(score);
            }
            let forced = u32::from(self.random.percent(3));
            self.words.push(forced);
        }
    }
}
