//! Function lines: one function of the Rust text for each number of docs/RULES.md, Function lines.

use crate::both;
use crate::known;
use crate::stored;
use crate::wire::{words, Answer, Arguments, Told};
use plain::disk::{candidates, geometry, score, search};
use plain::given::{Choice, Float, Ranked};
use plain::ring::{robust, seed, solver};
use shapes::{ANGLES, PAIRED_ANGLES, PIXELS};
use std::f32::consts::{PI, TAU};
use support::Counts;

/// All numbers that are answered, but for those below.
pub const NUMBERS: [u8; 53] = [
    10, 11, 12, 13, 14, 15, 16, 17, 20, 21, 22, 23, 24, 30, 31, 32, 33, 34, 35, 40, 41, 42, 43, 44, 45, 50, 51, 52, 53,
    54, 60, 61, 62, 63, 64, 70, 71, 72, 73, 74, 75, 76, 77, 80, 81, 82, 83, 90, 91, 92, 93, 94, 95,
];

/// Numbers that came later: lines are made for them only where they are named, so that a list of before stays as it was.
pub const LATER: [u8; 6] = [46, 65, 66, 67, 68, 69];

/// Numbers whose function takes a matrix.
pub const ELIMINATIONS: [u8; 3] = [40, 41, 46];

pub fn answer(line: &[u8]) -> Vec<u8> {
    answered(line).0
}

/// With what is told beside the words; a line that is none has `?` for its answer.
pub fn answered(line: &[u8]) -> (Vec<u8>, Told) {
    answer_words(line).map_or((b"?".to_vec(), Told::default()), |answer| (answer.text(), answer.told))
}

fn answer_words(line: &[u8]) -> Option<Answer> {
    let number = function_number(line.get(..2)?)?;
    let mut arguments = Arguments::new(words(&line[2..])?);
    let a = &mut arguments;
    match number {
        10..=17 => numbers(number, a),
        20..=24 => five(number, a),
        30..=35 => lines(number, a),
        40..=46 => solving(number, a),
        50..=54 => seeding(number, a),
        60..=66 => ring_fit(number, a),
        67..=69 => stored::answer(number, a),
        70..=77 => candidate_set(number, a),
        80..=83 => scoring(number, a),
        90..=95 => searching(number, a),
        _ => None,
    }
}

/// The two digits as they are written in the table.
fn function_number(characters: &[u8]) -> Option<u8> {
    if characters.len() != 2 || !characters.iter().all(u8::is_ascii_digit) {
        return None;
    }
    Some((characters[0] - b'0') * 10 + (characters[1] - b'0'))
}

fn new() -> Answer {
    Answer::default()
}

fn numbers(number: u8, a: &mut Arguments) -> Option<Answer> {
    if number == 14 {
        let x = a.double()?;
        a.end()?;
        return Some(new().float(x as f32));
    }
    let x = a.float()?;
    let y = if matches!(number, 10 | 11 | 12 | 15) { a.float()? } else { 0.0 };
    a.end()?;
    Some(match number {
        10 if y != PI && y != TAU => return None,
        10 => new().float(Float::rem_euclid(x, y)),
        11 => new().float(x.max_given(y)),
        12 => new().float(x.min_given(y)),
        13 => new().float(Float::sqrt(x)),
        15 => new().number((x.ranked().total_cmp(&y.ranked()) as i8 + 1) as usize),
        16 => new().float(x.to_radians()),
        _ => new().number(candidates::bin(x)),
    })
}

fn five(number: u8, a: &mut Arguments) -> Option<Answer> {
    let x = a.float()?;
    let other = if number == 24 { a.float()? } else { 0.0 };
    a.end()?;
    Some(new().float(match number {
        20 => Float::sin(x),
        21 => Float::cos(x),
        22 => Float::tanh(x),
        23 => Float::exp(x),
        _ => Float::atan2(x, other),
    }))
}

fn lines(number: u8, a: &mut Arguments) -> Option<Answer> {
    let x = a.float()?;
    let y = if number == 30 { 0.0 } else { a.float()? };
    let rest = if number == 34 { a.floats()? } else { [0.0; 2] };
    a.end()?;
    Some(match number {
        30 => new().float(geometry::wrap_pi(x)),
        31 => new().float(geometry::signed_line_delta(x, y)),
        32 => new().float(geometry::line_delta(x, y)),
        33 => new().float(geometry::line_separation(x, y)),
        34 => new().float(geometry::pair_disagreement([x, y, rest[0], rest[1]])),
        _ => new().bool(geometry::valid_pair(x, y)),
    })
}

fn solving(number: u8, a: &mut Arguments) -> Option<Answer> {
    match number {
        40 => {
            let (matrix, right) = (a.matrix()?, a.floats()?);
            a.end()?;
            let (solution, counts) = both::solve_4x4(&matrix, &right);
            Some(new().optional(solution, |answer, x| answer.floats(&x)).eliminated(counts))
        }
        41 | 46 => {
            let (matrix, ssr, n) = (a.matrix()?, a.float()?, a.count(PIXELS)?);
            a.end()?;
            let (errors, counts) = both::axis_std_errors(&matrix, ssr, n);
            let answer = new().floats(&errors).eliminated(counts);
            Some(if number == 41 { answer } else { answer.known(known::of_given(&counts.errors[0], errors)) })
        }
        42 | 44 => {
            let x = a.float()?;
            a.end()?;
            Some(match number {
                42 => new().floats(&solver::degenerate_fit(x)),
                _ => new().float(solver::wrap_to_tau(x)),
            })
        }
        43 => {
            let [theta1, theta2, amp] = a.floats()?;
            a.end()?;
            let (theta1, theta2, amp, swapped) = solver::canonicalize_tracking_swap(theta1, theta2, amp);
            Some(new().floats(&[theta1, theta2, amp]).bool(swapped))
        }
        _ => {
            let (ring, seed) = (a.ring()?, a.floats()?);
            a.end()?;
            let (fit, counts) = both::fit_with_seed(&ring, seed);
            Some(new().floats(&fit).number(counts.updates[0] as usize))
        }
    }
}

fn seeding(number: u8, a: &mut Arguments) -> Option<Answer> {
    match number {
        50 => {
            let (ring, mean) = (a.ring()?, a.float()?);
            a.end()?;
            let (theta, magnitude) = seed::second_harmonic(&ring, mean);
            Some(new().floats(&[theta, magnitude]))
        }
        51 | 52 => {
            let [x, y] = a.floats()?;
            a.end()?;
            Some(match number {
                51 => new().bool(seed::valid_seed_pair(x, y)),
                _ => new().float(seed::line_separation(x, y)),
            })
        }
        53 => {
            let centred = a.floats()?;
            let [sum_of_squares, mean] = a.floats()?;
            let rows = [centred, a.floats()?, a.floats()?];
            let [theta1, theta2] = a.floats()?;
            a.end()?;
            let seed = seed::score_seed_pair(&rows, [sum_of_squares, mean, theta1, theta2]);
            Some(new().optional(seed, |answer, words| answer.floats(&words)))
        }
        _ => {
            let (held, candidate) = (a.optional(Arguments::floats)?, a.floats()?);
            a.end()?;
            Some(new().optional(seed::insert_seed_candidate(held, candidate), |answer, words| answer.floats(&words)))
        }
    }
}

fn ring_fit(number: u8, a: &mut Arguments) -> Option<Answer> {
    if number == 61 || number == 62 {
        let fit = a.floats()?;
        a.end()?;
        return Some(match number {
            61 => new().bool(robust::fit_is_suspicious(fit)),
            _ => new().float(robust::relative_rms(fit)),
        });
    }
    if number == 65 {
        let ring = a.ring()?;
        a.end()?;
        let (fit, counts) = both::fit_ring24(&ring);
        return Some(counted(new().floats(&fit), &counts));
    }
    let ring = a.ring()?;
    let (fit, counts) = match number {
        60 | 66 => {
            a.end()?;
            let (fit, counts) = both::fit_ring(&ring);
            let answer = new().floats(&fit);
            return Some(counted(if number == 60 { answer } else { answer.mean(counts) }, &counts));
        }
        63 => {
            let [mean, variance] = a.floats()?;
            a.end()?;
            both::robust_grid_fit(&ring, mean, variance)
        }
        _ => {
            let (variance, seed) = (a.float()?, a.optional(Arguments::floats)?);
            a.end()?;
            both::refine_seed_candidates(&ring, variance, seed)
        }
    };
    Some(new().optional(fit, |answer, words| answer.floats(&words).number(counts.updates[0] as usize)))
}

/// The starts and the updates of each.
fn counted(answer: Answer, counts: &Counts) -> Answer {
    let [first, second] = counts.updates;
    answer.number(counts.starts as usize).number(first as usize).number(second as usize)
}

fn candidate_set(number: u8, a: &mut Arguments) -> Option<Answer> {
    match number {
        71 => {
            let (disk, [base0, base1]) = (a.disk()?, a.floats()?);
            a.end()?;
            Some(new().set(&candidates::histogram_candidates(&disk, base0, base1)))
        }
        75 => {
            let (forced, (i, j)) = (a.optional(Arguments::pair)?, a.pair()?);
            a.end()?;
            Some(new().bool(candidates::matches_pair(forced, i, j)))
        }
        76 => pair_pool(a),
        77 => {
            let [x, y, total] = a.floats()?;
            a.end()?;
            Some(new().float(candidates::combine_edge_pair(x, y, total)))
        }
        _ => set_alone(number, a),
    }
}

fn pair_pool(a: &mut Arguments) -> Option<Answer> {
    let set = a.set(PAIRED_ANGLES)?;
    let (sums, total) = (a.some_floats(set.count)?, a.float()?);
    let forced = [a.optional(Arguments::pair)?, a.optional(Arguments::pair)?];
    a.end()?;
    Some(new().pool(&candidates::build_pair_pool(&set, &sums, total, forced)))
}

fn set_alone(number: u8, a: &mut Arguments) -> Option<Answer> {
    let set = a.set(ANGLES)?;
    if number == 73 {
        let sums = a.some_floats(set.count)?;
        a.end()?;
        return Some(new().pair(candidates::forced_histogram_pair(&set, &sums)));
    }
    let x = a.float()?;
    let y = if number == 74 { 0.0 } else { a.float()? };
    a.end()?;
    Some(match number {
        70 => new().set(&candidates::push_unique(&set, x, y)),
        72 => new().pair(candidates::forced_seed_pair(&set, x, y)),
        _ => new().optional(candidates::closest_candidate(&set, x), Answer::number),
    })
}

fn scoring(number: u8, a: &mut Arguments) -> Option<Answer> {
    match number {
        80 => {
            let (disk, scalars) = (a.disk()?, a.floats()?);
            let rows: [[f32; PIXELS]; 2] = [a.some_floats(disk.count)?, a.some_floats(disk.count)?];
            a.end()?;
            let [h0, h1] = &rows;
            Some(new().fit(score::score_pair_cached(&disk, scalars, &h0[..disk.count], &h1[..disk.count])))
        }
        81 => {
            let (disk, set) = (a.disk()?, a.set(ANGLES)?);
            a.end()?;
            let (total, sums) = score::precompute_edge_alignments(&disk, &set);
            Some(new().float(total).floats(&sums[..set.count]))
        }
        82 => {
            let (first, second) = (a.floats()?, a.floats()?);
            a.end()?;
            Some(new().bool(score::fit_is_better(first, second)))
        }
        _ => {
            let (disk, fit) = (a.disk()?, a.floats()?);
            a.end()?;
            Some(new().floats(&score::fit_std_errors(&disk, fit)))
        }
    }
}

fn searching(number: u8, a: &mut Arguments) -> Option<Answer> {
    match number {
        91 => {
            let pool = a.pool()?;
            a.end()?;
            Some(new().pool(&search::rank(&pool)))
        }
        92 => {
            let leaders = [a.optional(Arguments::floats)?, a.optional(Arguments::floats)?];
            let fit = a.floats()?;
            a.end()?;
            let [first, second] = search::insert_top(leaders, fit);
            Some(new().fit(first).fit(second))
        }
        _ => searching_disk(number, a),
    }
}

fn searching_disk(number: u8, a: &mut Arguments) -> Option<Answer> {
    let disk = a.disk()?;
    match number {
        90 => {
            let [base0, base1] = a.floats()?;
            a.end()?;
            let (fit, counts) = both::best_disk_fit(&disk, base0, base1);
            Some(new().fit(fit).number(counts.trials as usize))
        }
        93 => {
            let fit = a.floats()?;
            a.end()?;
            Some(new().floats(&search::refine_fit_cached(&disk, fit)))
        }
        94 => {
            a.end()?;
            Some(new().float(search::edge_weight_total(&disk)))
        }
        _ => {
            let (base, offsets, width) = (a.float()?, a.floats()?, a.float()?);
            a.end()?;
            let (sums, rows) = search::build_axis_rows(&disk, base, &offsets, width);
            Some(rows.iter().fold(new().floats(&sums), |answer, row| answer.floats(&row[..disk.count])))
        }
    }
}
