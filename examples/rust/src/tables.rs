//! Tables of seed models, for rings that do not move. The one part of the crate that takes memory from the heap.

use crate::{raw::tables as raw, ring_fit, Refusal, RingFit};
use alloc::{boxed::Box, vec};
use core::fmt;

/// Tables that a [`Tables`] holds at most.
pub const MOST_TABLES: usize = 3;

/// Up to [`MOST_TABLES`] tables of seed models, for rings that do not move: what a second start of a ring fit looks for its
/// seed in, worked out beforehand from the ring's 16 angles.
///
/// A table is held until [`clear`](Self::clear). The 55 KB lie on the heap and never on the stack; a clone takes as many
/// again. Where the heap has no room, what the program does about that is done, as for every `Box`. Threads may share a
/// `Tables`: a fit changes nothing in it.
///
/// ```
/// use jengubool::{sin, Number, Tables};
///
/// let angles: [f32; 16] = core::array::from_fn(|i| i as f32 * core::f32::consts::FRAC_PI_8);
/// let mut tables = Tables::new();
/// tables.store(&angles)?;
///
/// let samples = angles.map(|a| 128.0 + 60.0 * sin(2.0 * a));
/// let fit = tables.fit(&samples, &angles)?;
/// assert!(fit.amp > 50.0 && fit.theta1 < fit.theta2);
///
/// assert_eq!(tables.store(&angles[..15]).unwrap_err().number, Number::Length);
/// # Ok::<(), jengubool::Refusal>(())
/// ```
#[derive(Clone)]
pub struct Tables {
    words: Box<raw::Words>,
}

impl Tables {
    /// Holds no table.
    pub fn new() -> Self {
        // By way of a vector, since `Box::new` may build the array on the stack. Zeros hold no table.
        match vec![0.0; raw::WORDS].into_boxed_slice().try_into() {
            Ok(words) => Self { words },
            Err(_) => unreachable!("the vector is as long as the array"),
        }
    }

    /// Lets go of all tables. The memory stays.
    pub fn clear(&mut self) {
        raw::fresh(&mut self.words);
    }

    /// Stores the table of a ring of 16 angles (radians) behind those that are held. Equal angles may be stored twice.
    ///
    /// # Errors
    ///
    /// In this order: [`Number::Length`](crate::Number::Length) at place 0 if there are not
    /// [`RING_SAMPLES`](crate::RING_SAMPLES) angles; [`Number::NotFinite`](crate::Number::NotFinite) at the index of the
    /// first angle that is NaN or infinite; [`Number::Full`](crate::Number::Full) at place 0 if [`MOST_TABLES`] are held.
    /// A refused call changes nothing.
    pub fn store(&mut self, angles: &[f32]) -> Result<(), Refusal> {
        match raw::store(&mut self.words, angles) {
            0 => Ok(()),
            code => Err(Refusal::from_code(code)),
        }
    }

    /// Fits the two axes to 16 samples at 16 angles (radians): as [`fit_ring`](crate::fit_ring), but that the seed of a
    /// second start comes from the first table whose angles all lie within 1e-6 of the ring's. Where there is none, the
    /// answer is that of `fit_ring`, bit for bit. Where there is one, its sums are rounded in another order, and the answer
    /// differs as a rule in the last bits, if at all.
    ///
    /// # Errors
    ///
    /// Those of [`fit_ring`](crate::fit_ring).
    pub fn fit(&self, samples: &[f32], angles: &[f32]) -> Result<RingFit, Refusal> {
        let mut fit = [0.0; 7];
        let mut counts = [0; 4];
        match raw::fit(&self.words, samples, angles, &mut fit, &mut counts) {
            0 => Ok(ring_fit(fit, counts)),
            code => Err(Refusal::from_code(code)),
        }
    }
}

impl Default for Tables {
    fn default() -> Self {
        Self::new()
    }
}

/// Without the words, which would fill pages.
impl fmt::Debug for Tables {
    fn fmt(&self, f: &mut fmt::Formatter<'_>) -> fmt::Result {
        f.debug_struct("Tables").finish_non_exhaustive()
    }
}

#[cfg(test)]
mod tests {
    extern crate std;

    use super::*;
    use crate::{fit_ring, sin, tanh, Number};
    use alloc::{format, string::ToString, vec::Vec};
    use core::f32::consts::{FRAC_PI_8, PI, TAU};

    const LENGTH: Refusal = Refusal { number: Number::Length, place: 0 };
    const FULL: Refusal = Refusal { number: Number::Full, place: 0 };

    const fn wild(place: usize) -> Refusal {
        Refusal { number: Number::NotFinite, place: place as u16 }
    }

    /// 16 angles in even steps from a first one on.
    fn ring(first: f32) -> [f32; 16] {
        core::array::from_fn(|i| first + i as f32 * FRAC_PI_8)
    }

    /// A corner in whole grey values. One whose axes are not square to each other makes a second start.
    fn corner(angles: &[f32; 16], axis1: f32, axis2: f32) -> [f32; 16] {
        let edge = |angle: f32, axis: f32| tanh(4.0 * sin(angle - axis));
        angles.map(|angle| (128.5 + 60.0 * edge(angle, axis1) * edge(angle, axis2)).trunc())
    }

    fn bits(tables: &Tables) -> Vec<u32> {
        tables.words.iter().map(|word| word.to_bits()).collect()
    }

    fn full() -> Tables {
        let mut tables = Tables::new();
        for first in [0.0, 0.1, 0.2] {
            tables.store(&ring(first)).unwrap();
        }
        tables
    }

    /// Corners of 32 separations: what both ways answer.
    fn both_ways(tables: &Tables, angles: &[f32; 16]) -> Vec<[RingFit; 2]> {
        let separations = (0..32).map(|i| 0.3 + 0.04 * i as f32);
        let samples = separations.map(|apart| corner(angles, 2.0 * apart, 3.0 * apart));
        samples.map(|s| [tables.fit(&s, angles).unwrap(), fit_ring(&s, angles).unwrap()]).collect()
    }

    #[test]
    fn where_no_table_is_near_the_fit_is_the_direct_one() {
        for tables in [Tables::new(), Tables::default(), full(), full().clone()] {
            let fits = both_ways(&tables, &ring(0.3));
            assert!(fits.iter().all(|[fit, direct]| fit == direct), "{fits:?}");
            assert!([1, 2].iter().all(|&starts| fits.iter().any(|[fit, _]| fit.starts == starts)), "{fits:?}");
        }
    }

    #[test]
    fn a_ring_with_its_table_is_fitted() {
        for [fit, direct] in both_ways(&full(), &ring(0.1)) {
            assert!((0.0..PI).contains(&fit.theta1) && (fit.theta1..TAU).contains(&fit.theta2), "{fit:?}");
            let [off1, off2] = [fit.theta1 - direct.theta1, fit.theta2 - direct.theta2].map(f32::abs);
            assert!(off1 < 0.001 && off2 < 0.001, "{fit:?}");
            assert!((fit.amp - direct.amp).abs() < 0.01 && (fit.mean - direct.mean).abs() < 0.01, "{fit:?}");
            assert_eq!(fit.starts, direct.starts);
        }
    }

    /// Without its models, all of them 0, a skewed corner finds no second start: so the seed was the table's.
    #[test]
    fn the_seed_is_that_of_the_table() {
        let (mut tables, angles) = (full(), ring(0.0));
        let samples = corner(&angles, 0.7, 1.2);
        assert_eq!(tables.fit(&samples, &angles).unwrap().starts, 2);
        tables.words[17..=(raw::WORDS - 1) / 3].fill(0.0);
        assert_eq!(tables.fit(&samples, &angles).unwrap().starts, 1);
        assert_eq!(fit_ring(&samples, &angles).unwrap().starts, 2);
    }

    /// Lengths come before values, and both before the lack of room.
    #[test]
    fn a_refused_store_changes_nothing() {
        for mut tables in [Tables::new(), full()] {
            let before = bits(&tables);
            for wrong in [0, 15, 17, 24] {
                assert_eq!(tables.store(&[f32::NAN; 24][..wrong]), Err(LENGTH));
            }
            for place in 0..16 {
                let mut angles = ring(0.0);
                angles[15] = f32::NAN; // the first one counts
                angles[place] = [f32::NAN, f32::INFINITY, f32::NEG_INFINITY][place % 3];
                assert_eq!(tables.store(&angles), Err(wild(place)));
            }
            assert!(bits(&tables) == before);
        }
    }

    #[test]
    fn a_fourth_table_finds_no_room() {
        let mut tables = full();
        let before = bits(&tables);
        let refusal = tables.store(&ring(0.3)).unwrap_err();
        assert_eq!(refusal, FULL);
        assert_eq!(refusal.to_string(), "refused: three tables are held (number 6, place 0)");
        assert!(bits(&tables) == before);
        tables.clear();
        assert_eq!(tables.store(&ring(0.3)), Ok(()));
    }

    #[test]
    fn a_clone_goes_its_own_way() {
        let tables = full();
        let mut other = tables.clone();
        other.clear();
        assert_eq!((other.store(&ring(0.0)), tables.clone().store(&ring(0.0))), (Ok(()), Err(FULL)));
    }

    #[test]
    fn a_fit_is_refused_as_the_direct_one() {
        let (tables, zeros, nans) = (full(), [0.0; 16], [f32::NAN; 24]);
        for wrong in [0, 15, 17, 24] {
            assert_eq!(tables.fit(&nans[..wrong], &zeros), Err(LENGTH));
            assert_eq!(tables.fit(&zeros, &nans[..wrong]), Err(LENGTH));
        }
        assert_eq!(tables.fit(&nans, &nans), Err(LENGTH));
        for place in 0..32 {
            let mut values = [0.0; 32];
            values[31] = f32::NAN; // the first one counts
            values[place] = f32::INFINITY;
            assert_eq!(tables.fit(&values[..16], &values[16..]), Err(wild(place)));
        }
    }

    /// On a stack that is shorter than the words.
    #[test]
    fn the_words_are_never_on_the_stack() {
        let few = std::thread::Builder::new().stack_size(48 * 1024);
        let fit = few.spawn(|| full().clone().fit(&[0.0; 16], &[0.0; 16])).unwrap().join().unwrap();
        assert_eq!(fit, fit_ring(&[0.0; 16], &[0.0; 16]));
    }

    #[test]
    fn it_is_shown_without_its_words() {
        assert_eq!(format!("{:?}", full()), "Tables { .. }");
    }
}
