//! The checked layer: frame lines in, answer lines out, refusals in the order of docs/RULES.md. It is ours, and written
//! here a second time from that page; the fits come from the Rust text.

use crate::both;
use crate::known::{self, Known};
use crate::wire::{from_bits, is_hexadecimal, number, push_hex, to_bits, words};
use shapes::{Disk, Fit6, Ring, PIXELS};
use support::Counts;

const LONGEST_LINE: usize = 12_830;
const DISK_HEAD: usize = 30;

#[derive(Clone, Copy, PartialEq)]
pub enum Kind {
    Ring,
    Disk,
    Ring24,
}

#[derive(Clone, Copy)]
pub struct Refusal {
    /// Nothing where the line is malformed: its type is not believed then.
    pub kind: Option<Kind>,
    pub number: u32,
    pub place: u32,
}

pub enum Outcome {
    Fit(Kind, Counts, Known),
    Refused(Refusal, Counts),
}

pub struct Answered {
    pub line: Vec<u8>,
    pub outcome: Outcome,
}

/// What a line that passes all checks holds.
pub enum Frame {
    Ring(Ring<16>),
    Disk(Box<Disk>, [f32; 2]),
    Ring24(Ring<24>),
}

const MALFORMED: Refusal = Refusal { kind: None, number: 5, place: 0 };

pub fn answer(line: &[u8]) -> Answered {
    match parse(line) {
        Ok(Frame::Ring(ring)) => answer_ring(Kind::Ring, both::fit_ring(&ring)),
        Ok(Frame::Disk(disk, bases)) => answer_disk(&disk, bases),
        Ok(Frame::Ring24(ring)) => answer_ring(Kind::Ring24, both::fit_ring24(&ring)),
        Err(refusal) => refused(refusal, Counts::default()),
    }
}

/// The values of a ring's frame as jb_ring_record answers them: the six words of the fit, the mean and the four counts, or the
/// one word number * 65536 + place. Any other line has `?`.
pub fn record(line: &[u8]) -> (Vec<u8>, Option<Outcome>) {
    let answered = answer(line);
    let words = match &answered.outcome {
        Outcome::Fit(Kind::Ring | Kind::Ring24, counts, known) => {
            let mut text = answered.line[4..52].to_vec();
            let [first, second] = counts.updates;
            for word in [to_bits(counts.mean()), counts.starts, first, second, u32::from(known.holds())] {
                push_hex(&mut text, word, 8);
            }
            text
        }
        Outcome::Refused(Refusal { kind: Some(Kind::Ring | Kind::Ring24), number, place }, _) => {
            let mut text = Vec::with_capacity(8);
            push_hex(&mut text, number * 65536 + place, 8);
            text
        }
        _ => return (b"?".to_vec(), None),
    };
    (words, Some(answered.outcome))
}

/// The answer to a line that can not be read.
pub fn malformed() -> Vec<u8> {
    refused(MALFORMED, Counts::default()).line
}

pub fn parse(line: &[u8]) -> Result<Frame, Refusal> {
    if line.len() > LONGEST_LINE || !is_hexadecimal(line) || line.len() < 2 {
        return Err(MALFORMED);
    }
    match &line[..2] {
        b"01" => parse_ring(line, Kind::Ring).map(Frame::Ring),
        b"02" => parse_disk(line),
        b"03" => parse_ring(line, Kind::Ring24).map(Frame::Ring24),
        _ => Err(MALFORMED),
    }
}

fn parse_ring<const N: usize>(line: &[u8], kind: Kind) -> Result<Ring<N>, Refusal> {
    if line.len() != 2 + 8 * (2 * N) {
        return Err(MALFORMED);
    }
    let values = finite_values(&line[2..], kind)?;
    let run = |at: usize| std::array::from_fn(|i| values[at + i]);
    Ok(Ring { samples: run(0), angles: run(N) })
}

fn parse_disk(line: &[u8]) -> Result<Frame, Refusal> {
    if line.len() < DISK_HEAD {
        return Err(MALFORMED);
    }
    let count = number(&line[2..6]).expect("hexadecimal") as usize;
    if count == 0 || count > PIXELS {
        return Err(Refusal { kind: Some(Kind::Disk), number: 2, place: 0 });
    }
    if line.len() != DISK_HEAD + 40 * count {
        return Err(MALFORMED);
    }
    let values = finite_values(&line[6..], Kind::Disk)?;
    let mut runs = [[0.0; PIXELS]; 5];
    for (run, from) in runs.iter_mut().zip(values[3..].chunks(count)) {
        run[..count].copy_from_slice(from);
    }
    Ok(Frame::Disk(Box::new(Disk { count, val_energy: values[0], runs }), [values[1], values[2]]))
}

fn finite_values(characters: &[u8], kind: Kind) -> Result<Vec<f32>, Refusal> {
    let values: Vec<f32> = words(characters).expect("whole words").into_iter().map(from_bits).collect();
    match values.iter().position(|x| !x.is_finite()) {
        Some(place) => Err(Refusal { kind: Some(kind), number: 3, place: place as u32 }),
        None => Ok(values),
    }
}

/// The frame's type plus 80.
fn first_byte(kind: Kind) -> u32 {
    match kind {
        Kind::Ring => 0x81,
        Kind::Disk => 0x82,
        Kind::Ring24 => 0x83,
    }
}

/// What stands before the values of a fit.
fn head(kind: Kind) -> Vec<u8> {
    let mut line = Vec::with_capacity(98);
    push_hex(&mut line, first_byte(kind) << 8, 4);
    line
}

fn refused(refusal: Refusal, counts: Counts) -> Answered {
    let mut line = Vec::with_capacity(8);
    push_hex(&mut line, refusal.kind.map_or(0xff, first_byte), 2);
    push_hex(&mut line, refusal.number, 2);
    push_hex(&mut line, refusal.place, 4);
    Answered { line, outcome: Outcome::Refused(refusal, counts) }
}

fn answer_ring(kind: Kind, (fit, counts): (Fit6, Counts)) -> Answered {
    let known = known::of_ring(&counts, [fit[3], fit[4]]);
    let mut line = head(kind);
    for x in fit {
        push_hex(&mut line, to_bits(x), 8);
    }
    for byte in [counts.starts, counts.updates[0], counts.updates[1], u32::from(known.holds())] {
        push_hex(&mut line, byte, 2);
    }
    Answered { line, outcome: Outcome::Fit(kind, counts, known) }
}

fn answer_disk(disk: &Disk, bases: [f32; 2]) -> Answered {
    let (fit, counts) = both::best_disk_fit(disk, bases[0], bases[1]);
    let Some(fit) = fit else {
        return refused(Refusal { kind: Some(Kind::Disk), number: 4, place: counts.trials }, counts);
    };
    let (errors, given) = both::fit_std_errors(disk, fit);
    let known = known::of_given(&given.errors[0], errors);
    let mut line = head(Kind::Disk);
    for x in fit.into_iter().chain(errors) {
        push_hex(&mut line, to_bits(x), 8);
    }
    push_hex(&mut line, counts.trials, 4);
    push_hex(&mut line, u32::from(known.holds()), 2);
    Answered { line, outcome: Outcome::Fit(Kind::Disk, counts, known) }
}
