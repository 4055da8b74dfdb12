//! Whether the errors of a fit are known (docs/RULES.md, Known), from what the Rust text itself hands to axis_std_errors: its
//! matrix, its residual sum and its number of samples. The plain copy solves for the two columns once more.

use crate::wire::to_bits;
use support::{Counts, Given};

/// Why the errors are known, or the first reason why not.
#[derive(Clone, Copy, PartialEq)]
pub enum Why {
    Estimated,
    Degenerate,
    FewSamples,
    Failed,
    Sum,
    FirstEntry(f32),
    SecondEntry(f32),
}

#[derive(Clone, Copy)]
pub struct Known {
    pub why: Why,
    pub errors: [f32; 2],
}

impl Known {
    pub fn holds(&self) -> bool {
        self.why == Why::Estimated
    }

    /// The rule of before: unless both errors equal PI.
    pub fn held(&self) -> bool {
        self.errors != [std::f32::consts::PI; 2]
    }
}

/// Of a ring's answer: the start that is answered says it.
pub fn of_ring(counts: &Counts, errors: [f32; 2]) -> Known {
    let start = usize::from(counts.second_answered);
    if counts.degenerate[start] {
        return Known { why: Why::Degenerate, errors };
    }
    of_given(&counts.errors[start], errors)
}

/// Of a matrix, and of a disk, which has no start.
pub fn of_given(given: &Option<Given>, errors: [f32; 2]) -> Known {
    let given = given.as_ref().expect("errors are asked for");
    same(given, errors);
    Known { why: why(given), errors }
}

fn why(given: &Given) -> Why {
    if given.n <= 4 {
        return Why::FewSamples;
    }
    let solve = plain::ring::solver::solve_4x4;
    let (Some(first), Some(second)) = (solve(&given.jtj, &[0.0, 0.0, 1.0, 0.0]), solve(&given.jtj, &[0.0, 0.0, 0.0, 1.0])) else {
        return Why::Failed;
    };
    match (given.ssr.is_finite(), first[2].is_finite(), second[3].is_finite()) {
        (false, _, _) => Why::Sum,
        (_, false, _) => Why::FirstEntry(first[2]),
        (_, _, false) => Why::SecondEntry(second[3]),
        _ => Why::Estimated,
    }
}

/// Stops the program where the answer's errors are not those of what was handed over: then the byte speaks of another matrix.
fn same(given: &Given, errors: [f32; 2]) {
    let bits = |errors: [f32; 2]| errors.map(to_bits);
    let [first, second] = plain::ring::solver::axis_std_errors(&given.jtj, given.ssr, given.n);
    if bits(errors) != bits([first, second]) && bits(errors) != bits([second, first]) {
        eprintln!("oracle: an answer with the errors {errors:?} was made of {given:?}");
        std::process::exit(1);
    }
}
