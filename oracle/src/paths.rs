//! Which ways the frames of a list went: a comparison that reached only a few of them says little.

use crate::checked::{Kind, Outcome};
use crate::known::{Known, Why};
use crate::stored::Told;
use support::Counts;

#[derive(Default)]
pub struct Paths {
    /// What it is a path of, its name, how many lines took it.
    rows: Vec<(&'static str, &'static str, u64)>,
}

impl Paths {
    pub fn note(&mut self, outcome: &Outcome) {
        match outcome {
            Outcome::Fit(Kind::Ring, counts, known) => {
                self.record("ring: ", counts);
                self.known("ring: ", known);
            }
            Outcome::Fit(Kind::Disk, counts, known) => {
                self.disk(counts);
                self.known("disk: ", known);
            }
            Outcome::Fit(Kind::Ring24, counts, known) => {
                self.record("ring of 24: ", counts);
                self.known("ring of 24: ", known);
            }
            Outcome::Refused(refusal, counts) => {
                if counts.searched {
                    self.disk(counts);
                }
                const REFUSALS: [&str; 5] = ["refusal 1", "refusal 2", "refusal 3", "refusal 4", "refusal 5"];
                self.add("", REFUSALS[refusal.number as usize - 1], true);
            }
        }
    }

    fn add(&mut self, what: &'static str, name: &'static str, taken: bool) {
        match self.rows.iter_mut().find(|row| (row.0, row.1) == (what, name)) {
            Some(row) => row.2 += u64::from(taken),
            None => self.rows.push((what, name, u64::from(taken))),
        }
    }

    fn ring(&mut self, what: &'static str, counts: &Counts) {
        self.add(what, "one start", counts.starts == 1);
        self.add(what, "two starts", counts.starts == 2);
        self.add(what, "second answered", counts.second_answered);
        self.add(what, "suspicious, no seed", counts.suspicious && counts.starts == 1);
        self.add(what, "failed elimination in an update", counts.failed_elimination);
        self.add(what, "degenerate first start", counts.degenerate[0]);
        self.add(what, "degenerate second start", counts.degenerate[1]);
        const UPDATES: [&str; 7] = [
            "starts with 0 updates", "starts with 1 update", "starts with 2 updates",
            "starts with 3 updates", "starts with 4 updates", "starts with 5 updates",
            "starts with 6 updates",
        ];
        for name in UPDATES {
            self.add(what, name, false);
        }
        for &updates in &counts.updates[..counts.starts as usize] {
            self.add(what, UPDATES[updates as usize], true);
        }
    }

    /// The ways of a ring, and what is peculiar about the mean of the start that is answered.
    pub fn record(&mut self, what: &'static str, counts: &Counts) {
        self.ring(what, counts);
        let (mean, start) = (counts.mean(), usize::from(counts.second_answered));
        self.add(what, "first start answered of two", counts.starts == 2 && start == 0);
        self.add(what, "degenerate second start answered", start == 1 && counts.degenerate[1]);
        self.add(what, "degenerate start answered", counts.degenerate[start]);
        self.add(what, "mean NaN", mean.is_nan());
        self.add(what, "mean infinite", mean.is_infinite());
        self.add(what, "mean -0", mean.to_bits() == (-0.0f32).to_bits());
        let other = counts.means[1 - start];
        self.add(what, "means of the two starts differ", other.is_some_and(|x| x.to_bits() != mean.to_bits()));
    }

    /// Of a ring beside tables: which was used, how near the others were, and whether the way through the table was told apart
    /// from the direct one.
    pub fn stored(&mut self, told: &Told) {
        const HELD: [&str; 4] = ["no table", "one table", "two tables", "three tables"];
        const USED: [&str; 3] = ["the first is used", "the second is used", "the third is used"];
        let counts = &told.counts;
        for (k, name) in HELD.into_iter().enumerate() {
            self.add("tables: ", name, told.tables == k);
        }
        for (k, name) in USED.into_iter().enumerate() {
            self.add("tables: ", name, told.index == Some(k));
        }
        self.add("tables: ", "none is used", told.index.is_none());
        self.add("tables: ", "used, of the ring's own angles", told.equal);
        self.add("tables: ", "used, of other angles", told.index.is_some() && !told.equal);
        self.add("tables: ", "two or more within 1e-6", told.within > 1);
        self.add("tables: ", "two or more within 1e-6, not alike", told.within_differ);
        self.nearness(told);
        self.add("tables: ", "a value of the ring is not finite", !told.finite);
        self.add("tables: ", "used, without a model", told.index.is_some() && told.models == 0);
        self.add("tables: ", "used, with 1 to 229 models", (1..230).contains(&told.models));
        self.add("tables: ", "grid, by a table", counts.cached);
        self.add("tables: ", "grid, the direct way", counts.suspicious && !counts.cached);
        self.add("tables: ", "grid, by a table, no seed", counts.cached && counts.starts == 1);
        self.add("tables: ", "second start, by a table", counts.cached && counts.starts == 2);
        self.add("tables: ", "second start answered, by a table", counts.cached && counts.second_answered);
        self.add("tables: ", "by a table, another seed than the direct way", counts.cached && told.other_seed);
        self.add("tables: ", "by a table, another answer than the direct way", counts.cached && told.other_answer);
        self.ring("ring: ", counts);
    }

    /// How near to 1e-6 the greatest difference from a table's angles is.
    fn nearness(&mut self, told: &Told) {
        let limit = 1e-6f32.to_bits();
        let at = |bits: u32| told.differences.iter().any(|of| of.0.to_bits() == bits);
        self.add("tables: ", "greatest difference 1e-6", at(limit));
        self.add("tables: ", "greatest difference the f32 below 1e-6", at(limit - 1));
        self.add("tables: ", "greatest difference the f32 above 1e-6", at(limit + 1));
        let between = |low: f32, high: f32| told.differences.iter().any(|of| low < of.0 && of.0 <= high);
        self.add("tables: ", "greatest difference from 9e-7 to 1e-6", between(9e-7, 1e-6));
        self.add("tables: ", "greatest difference beyond 1e-6, to 1.5e-6", between(1e-6, 1.5e-6));
        self.add("tables: ", "one angle alone is not within 1e-6", told.differences.iter().any(|of| of.1 == 1));
    }

    fn disk(&mut self, counts: &Counts) {
        self.add("disk: ", "two leaders", counts.leaders == 2);
        self.add("disk: ", "one leader", counts.leaders == 1);
        self.add("disk: ", "no leader", counts.leaders == 0);
        self.add("disk: ", "tie in rank among the kept", counts.ties_kept > 0);
        self.add("disk: ", "tie with a pair left out", counts.ties_at_end > 0);
        self.add("disk: ", "NaN edge score ranked", counts.nan_scores > 0);
        self.add("disk: ", "comparison reached theta2", counts.theta2 > 0);
        self.add("disk: ", "best moved in refinement", counts.moved > 0);
    }

    /// The byte of today and of the rule before it, by cause.
    pub fn known(&mut self, what: &'static str, known: &Known) {
        let changed = known.holds() != known.held();
        for (name, why) in [
            ("known", Why::Estimated),
            ("not known, degenerate", Why::Degenerate),
            ("not known, at most four samples", Why::FewSamples),
            ("not known, elimination failed", Why::Failed),
            ("not known, residual sum not finite", Why::Sum),
        ] {
            self.add(what, name, known.why == why && !changed);
        }
        self.add(what, "known, 00 before: both errors PI", known.why == Why::Estimated && changed);
        self.add(what, "known, an error of 0", known.why == Why::Estimated && known.errors.contains(&0.0));
        self.add(what, "not known, first entry infinite", matches!(known.why, Why::FirstEntry(x) if !x.is_nan()) && !changed);
        self.add(what, "not known, 01 before: first entry infinite", matches!(known.why, Why::FirstEntry(x) if !x.is_nan()) && changed);
        self.add(what, "not known, first entry NaN", matches!(known.why, Why::FirstEntry(x) if x.is_nan()) && !changed);
        self.add(what, "not known, 01 before: first entry NaN", matches!(known.why, Why::FirstEntry(x) if x.is_nan()) && changed);
        self.add(what, "not known, last entry not finite", matches!(known.why, Why::SecondEntry(_)));
    }

    /// Of one elimination, or of two of one matrix.
    pub fn elimination(&mut self, counts: &Counts) {
        const STOPPED: [[&str; 4]; 2] = [
            ["pivot 0 not finite", "pivot 1 not finite", "pivot 2 not finite", "pivot 3 not finite"],
            ["pivot 0 too small", "pivot 1 too small", "pivot 2 too small", "pivot 3 too small"],
        ];
        self.add("elimination: ", "equal sizes in a column", counts.equal_sizes > 0);
        self.add("elimination: ", "rows exchanged", counts.exchanges > 0);
        self.add("elimination: ", "a factor of 0 skipped", counts.skipped > 0);
        for (names, stopped) in STOPPED.iter().zip(&counts.stopped) {
            for (&name, &times) in names.iter().zip(stopped) {
                self.add("elimination: ", name, times > 0);
            }
        }
        self.add("elimination: ", "solved", counts.eliminations > 0 && counts.stopped == [[0; 4]; 2]);
        self.add("elimination: ", "none, for at most four samples", counts.eliminations == 0);
    }

    pub fn print(&self) {
        for (what, name, taken) in &self.rows {
            println!("{taken:>12}  {what}{name}");
        }
    }
}
