//! How far the axes of rendered corners are off, in degrees: the same corners on rings of 16 and of 24 points.

use crate::compare::Running;
use crate::generate::corners::Corner;
use crate::wire::{from_bits, number};
use std::f64::consts::PI;
use std::io;

pub struct Place {
    pub name: &'static str,
    pub points: usize,
    pub which: usize,
    head: &'static [u8],
}

pub const RINGS: [Place; 3] = [
    Place { name: "16 points, radius 5", points: 16, which: 0, head: b"8100" },
    Place { name: "24 points, radius 5", points: 24, which: 0, head: b"8300" },
    Place { name: "24 points, radius 7", points: 24, which: 1, head: b"8300" },
];

/// The greatest error that passes, in degrees; of 100,000 corners none is further off than 6.3.
const MOST: f64 = 8.0;

/// Degrees between two lines.
fn apart(a: f64, b: f64) -> f64 {
    let turns = (a - b) / PI;
    180.0 * (turns - turns.round()).abs()
}

/// The error of the worse axis; nothing where the answer is no fit.
fn error(corner: &Corner, answer: &[u8], head: &[u8]) -> Option<f64> {
    if answer.len() != 60 || !answer.starts_with(head) {
        return None;
    }
    let axis = |at: usize| number(&answer[at..at + 8]).map(|bits| f64::from(from_bits(bits)));
    let [first, second] = corner.axes;
    Some(apart(axis(12)?, first).max(apart(axis(20)?, second)))
}

/// False where an axis is further off than `MOST`, or an answer is no fit.
pub fn corners(program: &str, count: u64, seed: u64) -> io::Result<bool> {
    let lines = (0..count).flat_map(move |index| {
        let corner = Corner::new(seed, index);
        RINGS.map(|ring| corner.line(ring.points, ring.which))
    });
    let mut running = Running::start(program, lines)?;
    let mut errors = [const { Vec::new() }; RINGS.len()];
    for index in 0..count {
        let corner = Corner::new(seed, index);
        for (ring, errors) in RINGS.iter().zip(&mut errors) {
            let answer = running.next_answer()?.unwrap_or_default();
            errors.push(error(&corner, &answer, ring.head).unwrap_or(f64::INFINITY));
        }
    }
    println!("{count} rendered corners; degrees that the worse axis is off (at most {MOST}):");
    let mut good = count > 0;
    for (ring, errors) in RINGS.iter().zip(&mut errors) {
        errors.sort_by(f64::total_cmp);
        let at = |place: usize| errors.get(place).copied().unwrap_or_default();
        let (median, largest) = (at(errors.len() / 2), at(errors.len().saturating_sub(1)));
        println!("{}: median {median:.2}, largest {largest:.2}", ring.name);
        good &= largest <= MOST;
    }
    Ok(running.end()? && good)
}
