//! Hexadecimal words: reading the arguments of a line, writing those of an answer.

use crate::known::Known;
use crate::stored;
use shapes::{Disk, Fit9, Pair, Pool, Ring, Scored, Set, ANGLES, PAIRS, PIXELS};
use support::Counts;

/// The one NaN (docs/RULES.md, Floats).
const NAN: u32 = 0x7fc0_0000;
const NAN_OF_64: u64 = 0x7ff8_0000_0000_0000;

pub fn to_bits(x: f32) -> u32 {
    if x.is_nan() {
        NAN
    } else {
        x.to_bits()
    }
}

pub fn from_bits(bits: u32) -> f32 {
    let x = f32::from_bits(bits);
    if x.is_nan() {
        f32::from_bits(NAN)
    } else {
        x
    }
}

fn digit(character: u8) -> Option<u32> {
    match character {
        b'0'..=b'9' => Some(u32::from(character - b'0')),
        b'a'..=b'f' => Some(u32::from(character - b'a') + 10),
        _ => None,
    }
}

/// The number written by at most eight lower-case digits.
pub fn number(characters: &[u8]) -> Option<u32> {
    characters.iter().try_fold(0, |sum, &character| Some(sum * 16 + digit(character)?))
}

pub fn is_hexadecimal(line: &[u8]) -> bool {
    line.iter().all(|&character| digit(character).is_some())
}

/// Words of eight digits; nothing where the characters are not exactly such words.
pub fn words(characters: &[u8]) -> Option<Vec<u32>> {
    if characters.len() % 8 != 0 {
        return None;
    }
    characters.chunks(8).map(number).collect()
}

pub fn push_hex(text: &mut Vec<u8>, value: u32, digits: u32) {
    for place in (0..digits).rev() {
        text.push(b"0123456789abcdef"[(value >> (4 * place)) as usize & 15]);
    }
}

/// Takes the arguments of a function line one after another. Every method answers nothing where the line is not
/// of the form that docs/RULES.md gives, or a count leaves the domain.
pub struct Arguments {
    words: Vec<u32>,
    at: usize,
}

impl Arguments {
    pub fn new(words: Vec<u32>) -> Self {
        Self { words, at: 0 }
    }

    pub fn word(&mut self) -> Option<u32> {
        let word = *self.words.get(self.at)?;
        self.at += 1;
        Some(word)
    }

    pub fn float(&mut self) -> Option<f32> {
        self.word().map(from_bits)
    }

    pub fn floats<const N: usize>(&mut self) -> Option<[f32; N]> {
        let mut values = [0.0; N];
        self.fill(&mut values)?;
        Some(values)
    }

    /// The first `count` of `N` values; the rest stay 0.
    pub fn some_floats<const N: usize>(&mut self, count: usize) -> Option<[f32; N]> {
        let mut values = [0.0; N];
        self.fill(&mut values[..count])?;
        Some(values)
    }

    fn fill(&mut self, values: &mut [f32]) -> Option<()> {
        for value in values {
            *value = self.float()?;
        }
        Some(())
    }

    pub fn double(&mut self) -> Option<f64> {
        let bits = u64::from(self.word()?) << 32 | u64::from(self.word()?);
        let value = f64::from_bits(bits);
        Some(if value.is_nan() { f64::from_bits(NAN_OF_64) } else { value })
    }

    pub fn count(&mut self, most: usize) -> Option<usize> {
        let count = self.word()? as usize;
        (count <= most).then_some(count)
    }

    pub fn bool(&mut self) -> Option<bool> {
        match self.word()? {
            0 => Some(false),
            1 => Some(true),
            _ => None,
        }
    }

    pub fn optional<T>(&mut self, read: impl FnOnce(&mut Self) -> Option<T>) -> Option<Option<T>> {
        if self.bool()? {
            read(self).map(Some)
        } else {
            Some(None)
        }
    }

    pub fn pair(&mut self) -> Option<(usize, usize)> {
        Some((self.word()? as usize, self.word()? as usize))
    }

    pub fn ring<const N: usize>(&mut self) -> Option<Ring<N>> {
        Some(Ring { samples: self.floats()?, angles: self.floats()? })
    }

    pub fn matrix(&mut self) -> Option<[[f32; 4]; 4]> {
        Some([self.floats()?, self.floats()?, self.floats()?, self.floats()?])
    }

    pub fn set(&mut self, most: usize) -> Option<Set> {
        let count = self.count(most)?;
        Some(Set { count, angles: self.some_floats::<ANGLES>(count)? })
    }

    pub fn disk(&mut self) -> Option<Disk> {
        let count = self.count(PIXELS)?;
        let val_energy = self.float()?;
        let mut runs = [[0.0; PIXELS]; 5];
        for run in &mut runs {
            *run = self.some_floats(count)?;
        }
        Some(Disk { count, val_energy, runs })
    }

    /// No two pairs may share i and j: then the text's unstable selection is defined.
    pub fn pool(&mut self) -> Option<Pool> {
        let count = self.count(PAIRS)?;
        let mut pairs = [Scored::default(); PAIRS];
        for at in 0..count {
            let i = u16::try_from(self.word()?).ok()?;
            let j = u16::try_from(self.word()?).ok()?;
            let (edge_score, forced) = (self.float()?, self.bool()?);
            if pairs[..at].iter().any(|pair| (pair.i, pair.j) == (i, j)) {
                return None;
            }
            pairs[at] = Scored { i, j, edge_score, forced };
        }
        Some(Pool { count, pairs })
    }

    pub fn end(&self) -> Option<()> {
        (self.at == self.words.len()).then_some(())
    }
}

/// Beside the words: of an elimination what it did, of errors that say so whether they are known, of a ring with its mean the way
/// that it went, of one beside tables which of them it used.
#[derive(Default)]
pub struct Told {
    pub eliminated: Option<Counts>,
    pub known: Option<Known>,
    pub ring: Option<Counts>,
    pub stored: Option<stored::Told>,
}

#[derive(Default)]
pub struct Answer {
    words: Vec<u32>,
    pub told: Told,
}

impl Answer {
    pub fn eliminated(mut self, counts: Counts) -> Self {
        self.told.eliminated = Some(counts);
        self
    }

    pub fn known(mut self, known: Known) -> Self {
        self.told.known = Some(known);
        self.bool(known.holds())
    }

    /// The mu of the start that is answered.
    pub fn mean(mut self, counts: Counts) -> Self {
        self.told.ring = Some(counts);
        self.float(counts.mean())
    }

    pub fn stored(mut self, told: stored::Told) -> Self {
        self.told.stored = Some(told);
        self
    }

    pub fn number(mut self, number: usize) -> Self {
        self.words.push(u32::try_from(number).expect("a number of at most 32 bits"));
        self
    }

    pub fn bool(self, truth: bool) -> Self {
        self.number(usize::from(truth))
    }

    pub fn float(mut self, x: f32) -> Self {
        self.words.push(to_bits(x));
        self
    }

    pub fn floats(mut self, values: &[f32]) -> Self {
        self.words.extend(values.iter().map(|&x| to_bits(x)));
        self
    }

    pub fn optional<T>(self, value: Option<T>, write: impl FnOnce(Self, T) -> Self) -> Self {
        match value {
            None => self.number(0),
            Some(value) => write(self.number(1), value),
        }
    }

    pub fn fit(self, fit: Option<Fit9>) -> Self {
        self.optional(fit, |answer, words| answer.floats(&words))
    }

    pub fn pair(self, pair: Pair) -> Self {
        self.optional(pair, |answer, (i, j)| answer.number(i).number(j))
    }

    pub fn set(self, set: &Set) -> Self {
        self.number(set.count).floats(&set.angles[..set.count])
    }

    pub fn pool(self, pool: &Pool) -> Self {
        pool.pairs[..pool.count].iter().fold(self.number(pool.count), |answer, pair| {
            answer.number(pair.i.into()).number(pair.j.into()).float(pair.edge_score).bool(pair.forced)
        })
    }

    pub fn text(&self) -> Vec<u8> {
        let mut text = Vec::with_capacity(8 * self.words.len());
        for &word in &self.words {
            push_hex(&mut text, word, 8);
        }
        text
    }
}
