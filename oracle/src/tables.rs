//! How often the way through a table of seed models and the direct one pick different seeds and give different answers: over
//! rings that never move, as a scanner's, whose angles the table has.

use crate::both;
use crate::generate::tables::{Fixed, FIXED};
use crate::wire::{push_hex, to_bits};
use shapes::{Fit6, Ring};
use std::f64::consts::PI;
use support::Counts;

/// Degrees.
const FAR: f64 = 0.1;

#[derive(Default)]
struct Found {
    /// Rings looked at, and those of them that asked for the grid.
    made: u64,
    reached: u64,
    answered: u64,
    seeds: u64,
    answers: u64,
    answers_of_one_seed: u64,
    other_start: u64,
    updates: u64,
    /// Answers with an axis that is more than `FAR` off, and those of them whose second start settled by both ways.
    far: u64,
    far_settled: u64,
    /// The greatest differences: degrees between the axes, grey levels of rms.
    degrees: f64,
    rms: f64,
}

/// The first rings on which the two ways differ: in the seed, in the answer, in an axis by more than a tenth of a degree, in seed
/// and answer.
#[derive(Default)]
struct Examples {
    seed: Option<Ring<16>>,
    answer: Option<Ring<16>>,
    axis: Option<Ring<16>>,
    seed_and_answer: Option<Ring<16>>,
}

fn bits(words: &[f32]) -> Vec<u32> {
    words.iter().map(|&x| to_bits(x)).collect()
}

/// Degrees between the axes of two fits, each axis beside the nearer one.
fn apart(a: &Fit6, b: &Fit6) -> f64 {
    let between = |x: f32, y: f32| {
        let turns = (f64::from(x) - f64::from(y)) / PI;
        180.0 * (turns - turns.round()).abs()
    };
    let [straight, crossed] = [[b[1], b[2]], [b[2], b[1]]].map(|[first, second]| between(a[1], first).max(between(a[2], second)));
    straight.min(crossed)
}

impl Found {
    fn note(&mut self, direct: (Fit6, Counts), stored: (Fit6, Counts)) -> (bool, bool) {
        let seed = |counts: &Counts| bits(&counts.seed.expect("the grid has a seed"));
        let other_seed = seed(&direct.1) != seed(&stored.1);
        let other_answer = bits(&direct.0) != bits(&stored.0);
        self.reached += 1;
        self.answered += u64::from(stored.1.second_answered);
        self.seeds += u64::from(other_seed);
        self.answers += u64::from(other_answer);
        self.answers_of_one_seed += u64::from(other_answer && !other_seed);
        self.other_start += u64::from(direct.1.second_answered != stored.1.second_answered);
        self.updates += u64::from(direct.1.updates != stored.1.updates);
        let (degrees, rms) = (apart(&direct.0, &stored.0), f64::from((direct.0[5] - stored.0[5]).abs()));
        let settled = [&direct.1, &stored.1].iter().all(|counts| counts.updates[1] < 6);
        self.far += u64::from(degrees > FAR);
        self.far_settled += u64::from(degrees > FAR && settled);
        self.degrees = self.degrees.max(degrees);
        self.rms = self.rms.max(rms);
        (other_seed, other_answer)
    }

    fn print(&self, name: &str) {
        let Self { made, reached, answered, seeds, answers, answers_of_one_seed, .. } = self;
        println!("{name}: {reached} of {made} rings reached the grid, the second start is answered on {answered}");
        println!("    {seeds} have another seed, {answers} another answer ({answers_of_one_seed} of them with the same seed)");
        println!("    {} answer the other start, {} made other numbers of updates", self.other_start, self.updates);
        println!("    {} have an axis more than {FAR} degrees off, {} with fewer than six updates by both ways", self.far, self.far_settled);
        println!("    largest: axes {:.5} degrees, rms {:.5}", self.degrees, self.rms);
    }
}

fn look_at(fixed: &Fixed, count: u64, seed: u64, examples: &mut Examples) -> Found {
    let mut found = Found::default();
    while found.reached < count {
        let ring = fixed.ring(seed, found.made);
        found.made += 1;
        let (fit, counts) = both::fit_ring(&ring);
        if counts.starts < 2 {
            continue;
        }
        let (other_fit, other_counts, _) = both::fit_with_tables(&[ring.angles], &ring);
        let (other_seed, other_answer) = found.note((fit, counts), (other_fit, other_counts));
        if other_seed {
            examples.seed.get_or_insert_with(|| ring.clone());
        }
        if other_seed && other_answer {
            examples.seed_and_answer.get_or_insert_with(|| ring.clone());
        }
        if other_answer {
            examples.answer.get_or_insert_with(|| ring.clone());
        }
        if apart(&fit, &other_fit) > FAR {
            examples.axis.get_or_insert_with(|| ring.clone());
        }
    }
    found
}

fn print_lines(what: &str, ring: &Option<Ring<16>>) {
    let Some(ring) = ring else {
        return println!("no ring has another {what}");
    };
    let text = |head: &[u8], words: &mut dyn Iterator<Item = &f32>| {
        let mut line = head.to_vec();
        words.for_each(|&x| push_hex(&mut line, to_bits(x), 8));
        String::from_utf8(line).expect("digits")
    };
    println!("the first ring with another {what}, by a table of its angles and the direct way:");
    println!("{}", text(b"6700000001", &mut ring.angles.iter().chain(&ring.samples).chain(&ring.angles)));
    println!("{}", text(b"60", &mut ring.samples.iter().chain(&ring.angles)));
}

/// So many rings of each kind that ask for the grid; false where there are none to look at.
pub fn tables(count: u64, seed: u64) -> bool {
    let mut examples = Examples::default();
    for fixed in &FIXED {
        look_at(fixed, count, seed, &mut examples).print(fixed.name);
    }
    print_lines("seed", &examples.seed);
    print_lines("answer", &examples.answer);
    print_lines("axis", &examples.axis);
    print_lines("seed and another answer", &examples.seed_and_answer);
    count > 0
}
