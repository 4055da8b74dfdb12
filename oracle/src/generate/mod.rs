//! Lines of input, fixed by kind, seed and place in the list.

pub mod corners;
mod curves;
mod disks;
mod frames;
mod functions;
mod matrices;
mod random;
mod rings;
pub mod tables;
mod values;

use random::Random;

/// The number is that of a ring's points.
#[derive(Clone, Copy, PartialEq)]
pub enum Kind {
    Rings(usize),
    Disks,
    Bits(usize),
    Limits(usize),
    Damaged(usize),
    Faint(usize),
    Functions,
    Matrices,
}

pub const KINDS: [(&str, Kind); 13] = [
    ("rings", Kind::Rings(16)),
    ("disks", Kind::Disks),
    ("bits", Kind::Bits(16)),
    ("limits", Kind::Limits(16)),
    ("damaged", Kind::Damaged(16)),
    ("rings24", Kind::Rings(24)),
    ("bits24", Kind::Bits(24)),
    ("limits24", Kind::Limits(24)),
    ("damaged24", Kind::Damaged(24)),
    ("faint", Kind::Faint(16)),
    ("faint24", Kind::Faint(24)),
    ("functions", Kind::Functions),
    ("matrices", Kind::Matrices),
];

/// A list of lines that can be made again, from any thread.
#[derive(Clone)]
pub struct List {
    pub kind: Kind,
    pub count: u64,
    pub seed: u64,
    pub numbers: Vec<u8>,
}

impl List {
    pub fn line(&self, index: u64) -> Vec<u8> {
        let random = &mut Random::new(self.seed, index);
        match self.kind {
            Kind::Rings(points) => frames::good_ring(random, points),
            Kind::Disks => frames::good_disk(random),
            Kind::Bits(points) => frames::bits(random, points),
            Kind::Limits(points) => frames::limits(random, points),
            Kind::Damaged(points) => frames::damaged(random, points),
            Kind::Faint(points) => frames::faint_ring(random, points),
            Kind::Functions => {
                let number = self.numbers[random.below(self.numbers.len())];
                functions::line(random, number)
            }
            Kind::Matrices => {
                let number = random.pick(&self.numbers);
                matrices::line(random, number)
            }
        }
    }
}
