//! Frame lines: good ones, ones of wild bits, and damaged ones. A kind has rings of 16 points, perhaps with disks among
//! them, or rings of 24 alone.

use super::disks::{disk, Made};
use super::random::Random;
use super::rings::{faint, ring};
use super::values::{drawn, finite_bits, finite_limit, limit, middling_bits, Taste};
use crate::wire::push_hex;
use shapes::PIXELS;

pub fn line(first: &[u8], words: &[u32]) -> Vec<u8> {
    let mut text = first.to_vec();
    for &word in words {
        push_hex(&mut text, word, 8);
    }
    text
}

fn disk_line(made: &Made) -> Vec<u8> {
    let mut head = b"02".to_vec();
    push_hex(&mut head, made.runs[0].len() as u32, 4);
    let mut words = vec![made.val_energy, made.bases[0], made.bases[1]];
    words.extend(made.runs.iter().flatten());
    line(&head, &words)
}

/// Whether a frame is to be a ring: always, if the points are 24, else in so many of a hundred.
fn is_ring(random: &mut Random, points: usize, chance: usize) -> bool {
    points == 24 || random.percent(chance)
}

pub fn ring_line(points: usize, words: &[u32]) -> Vec<u8> {
    line(if points == 24 { b"03" } else { b"01" }, words)
}

pub fn good_ring(random: &mut Random, points: usize) -> Vec<u8> {
    ring_line(points, &ring(random, points))
}

pub fn faint_ring(random: &mut Random, points: usize) -> Vec<u8> {
    ring_line(points, &faint(random, points))
}

pub fn good_disk(random: &mut Random) -> Vec<u8> {
    disk_line(&disk(random, PIXELS))
}

/// Mostly rings and small disks: a large disk of wild words takes long and shows little more.
fn wild(random: &mut Random, points: usize, mut make: impl FnMut(&mut Random) -> u32) -> Vec<u8> {
    if is_ring(random, points, 70) {
        let words: Vec<u32> = (0..2 * points).map(|_| make(random)).collect();
        return ring_line(points, &words);
    }
    let count = if random.percent(95) { random.between(1, 24) } else { random.between(1, PIXELS) };
    let mut head = b"02".to_vec();
    push_hex(&mut head, count as u32, 4);
    let words: Vec<u32> = (0..3 + 5 * count).map(|_| make(random)).collect();
    line(&head, &words)
}

pub fn bits(random: &mut Random, points: usize) -> Vec<u8> {
    match random.below(4) {
        0 => wild(random, points, Random::bits),
        1 => wild(random, points, finite_bits),
        _ => wild(random, points, middling_bits),
    }
}

pub fn limits(random: &mut Random, points: usize) -> Vec<u8> {
    match random.below(6) {
        0 => wild(random, points, limit),
        1 | 2 => wild(random, points, finite_limit),
        3 => wild(random, points, |random| drawn(random, Taste::Mixed, -8.0, 8.0)),
        _ => sprinkled(random, points),
    }
}

/// A good frame with a few words replaced by limits.
fn sprinkled(random: &mut Random, points: usize) -> Vec<u8> {
    let (mut text, head) = if is_ring(random, points, 70) {
        (good_ring(random, points), 2)
    } else {
        (disk_line(&disk(random, 30)), 6)
    };
    let words = (text.len() - head) / 8;
    for _ in 0..random.between(1, 4) {
        let at = head + 8 * random.below(words);
        let bits = if random.percent(85) { finite_limit(random) } else { limit(random) };
        let mut digits = Vec::new();
        push_hex(&mut digits, bits, 8);
        text[at..at + 8].copy_from_slice(&digits);
    }
    text
}

pub fn damaged(random: &mut Random, points: usize) -> Vec<u8> {
    let text = if is_ring(random, points, 60) { good_ring(random, points) } else { disk_line(&disk(random, 12)) };
    let text = match random.below(12) {
        0 => wrong_type(random, text),
        1 | 2 if points == 24 => wrong_length(random, text),
        1 | 2 => wrong_count(random, text),
        3 => return Vec::new(),
        4 => very_long(random, if points == 24 { &[b"03"] } else { &[b"020140", b"020140", b"020000", b"020141", b"02ffff"] }),
        5 => non_finite(random, text),
        _ => return broken(random, text),
    };
    // Two faults in one line: the order of docs/RULES.md decides which is named.
    if random.percent(25) {
        broken(random, text)
    } else {
        text
    }
}

/// Damage that any line can suffer.
pub fn broken(random: &mut Random, mut text: Vec<u8>) -> Vec<u8> {
    let at = random.below(text.len().max(1));
    match random.below(8) {
        0 => text.truncate(at),
        1 => text.truncate(random.below(34).min(text.len())),
        2 => text.extend((0..random.between(1, 12)).map(|_| b'0')),
        3 => text.push(b'\r'),
        4 => text.make_ascii_uppercase(),
        5 => text.insert(at.min(text.len()), b' '),
        6 if !text.is_empty() => text[at] = random.pick(b"ghxG @`/:\0\x7f\xff-"),
        _ if !text.is_empty() => text[at] = random.pick(b"0123456789abcdefABCDEF"),
        _ => text.push(b'\t'),
    }
    text
}

fn wrong_type(random: &mut Random, mut text: Vec<u8>) -> Vec<u8> {
    let kinds: [&[u8]; 9] = [b"00", b"01", b"02", b"03", b"10", b"20", b"81", b"82", b"ff"];
    text[..2].copy_from_slice(random.pick(&kinds));
    text
}

fn wrong_count(random: &mut Random, mut text: Vec<u8>) -> Vec<u8> {
    let mut digits = Vec::new();
    push_hex(&mut digits, random.pick(&[0, 1, 2, 3, 12, 319, 320, 321, 322, 0x0fff, 0x4001, 0xffff]), 4);
    text[..2].copy_from_slice(b"02");
    text[2..6].copy_from_slice(&digits);
    text.truncate(random.pick(&[29, 30, 31, 70, text.len(), text.len()]));
    text
}

/// A ring that lacks words or has too many, one of 16 points among them.
fn wrong_length(random: &mut Random, mut text: Vec<u8>) -> Vec<u8> {
    text.resize(random.pick(&[2, 3, 10, 194, 258, 378, 385, 387, 394, 514]), b'0');
    text
}

fn very_long(random: &mut Random, heads: &[&[u8]]) -> Vec<u8> {
    let length = random.pick(&[12_828, 12_829, 12_830, 12_831, 12_832, 20_000]);
    let mut text = random.pick(heads).to_vec();
    text.resize(length, b'0');
    text
}

fn non_finite(random: &mut Random, mut text: Vec<u8>) -> Vec<u8> {
    let head = if text.starts_with(b"02") { 6 } else { 2 };
    let words = (text.len() - head) / 8;
    for _ in 0..random.between(1, 3) {
        let at = head + 8 * random.below(words);
        text[at..at + 8].copy_from_slice(random.pick(&[b"7f800000", b"ff800000", b"7fc00000", b"ff800001", b"7fffffff"]));
    }
    text
}
