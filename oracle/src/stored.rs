//! Function lines 67 to 69: the fit of a ring beside stored tables of seed models, the score of one model, and the storing of
//! tables. The storing is ours; it is written here a second time from docs/RULES.md, not taken from our verified code.

use crate::both;
use crate::wire::{to_bits, Answer, Arguments};
use shapes::{Angles, Fit6, Ring, TABLES};
use support::Counts;

/// As the text has it.
const WITHIN: f32 = 1e-6;

/// What a line 67 was about, for the table of ways.
pub struct Told {
    pub counts: Counts,
    pub tables: usize,
    pub index: Option<usize>,
    /// How many of the tables the text takes the ring's angles for.
    pub within: usize,
    /// These are not all of the same angles.
    pub within_differ: bool,
    /// The table used has the ring's very angles.
    pub equal: bool,
    /// Of each table the greatest difference of its angles from the ring's, and how many differ by more than 1e-6.
    pub differences: Vec<(f32, usize)>,
    pub finite: bool,
    /// Seed models of the table used.
    pub models: usize,
    /// The seed, and the answer, differ from those of the direct way.
    pub other_seed: bool,
    pub other_answer: bool,
}

pub fn answer(number: u8, a: &mut Arguments) -> Option<Answer> {
    match number {
        67 => fitted(a),
        68 => scored(a),
        _ => stored(a),
    }
}

fn tables_of(a: &mut Arguments, most: usize) -> Option<Vec<Angles>> {
    let count = a.count(most)?;
    (0..count).map(|_| a.floats()).collect()
}

fn fitted(a: &mut Arguments) -> Option<Answer> {
    let tables = tables_of(a, TABLES)?;
    let ring = a.ring()?;
    a.end()?;
    if !tables.iter().flatten().all(|angle| angle.is_finite()) {
        return None;
    }
    let (fit, counts, index) = both::fit_with_tables(&tables, &ring);
    let [first, second] = counts.updates;
    let answer = Answer::default().floats(&fit).number(counts.starts as usize).number(first as usize).number(second as usize);
    Some(answer.optional(index, Answer::number).stored(told(&tables, &ring, &fit, counts, index)))
}

fn scored(a: &mut Arguments) -> Option<Answer> {
    let centred = a.floats()?;
    let [sum_of_squares, mean, theta1, theta2, q_mean] = a.floats()?;
    let rows = [centred, a.floats()?];
    let denom = a.float()?;
    a.end()?;
    let seed = both::score_cached_seed_model(&rows, [sum_of_squares, mean, theta1, theta2, q_mean, denom]);
    Some(Answer::default().optional(seed, |answer, words| answer.floats(&words)))
}

/// One more than can be held may be asked for: it is refused by 6, after the 3 of an angle that is not finite.
fn stored(a: &mut Arguments) -> Option<Answer> {
    let tables = tables_of(a, TABLES + 1)?;
    a.end()?;
    let mut held = 0;
    Some(tables.iter().fold(Answer::default(), |answer, table| {
        match table.iter().position(|angle| !angle.is_finite()) {
            Some(place) => answer.number(3 * 65536 + place),
            None if held == TABLES => answer.number(6 * 65536),
            None => {
                held += 1;
                answer.number(0)
            }
        }
    }))
}

fn told(tables: &[Angles], ring: &Ring<16>, fit: &Fit6, counts: Counts, index: Option<usize>) -> Told {
    let apart = |table: &Angles| ring.angles.iter().zip(table).map(|(got, want)| (got - want).abs()).collect::<Vec<_>>();
    let differences = tables.iter().map(apart).map(|apart| {
        // A NaN counts as the greatest.
        let greatest = apart.iter().fold(0.0, |most: f32, &x| if x > most || x.is_nan() { x } else { most });
        (greatest, apart.iter().filter(|&&x| x.is_nan() || x > WITHIN).count())
    });
    let differences: Vec<_> = differences.collect();
    let within: Vec<_> = tables.iter().zip(&differences).filter(|(_, of)| of.1 == 0).map(|(table, _)| table).collect();
    let (direct, direct_counts) = both::fit_ring(ring);
    let bits = |fit: &[f32]| fit.iter().map(|&x| to_bits(x)).collect::<Vec<_>>();
    let seed = |counts: &Counts| counts.seed.map(|axes| bits(&axes));
    Told {
        tables: tables.len(),
        index,
        within: within.len(),
        within_differ: within.iter().any(|table| *table != within[0]),
        equal: index.is_some_and(|index| tables[index] == ring.angles),
        differences,
        finite: ring.samples.iter().chain(&ring.angles).all(|x| x.is_finite()),
        models: index.map_or(0, |_| plain_std::ring::seed::models_held()),
        other_seed: seed(&counts) != seed(&direct_counts),
        other_answer: bits(fit) != bits(&direct),
        counts,
    }
}
