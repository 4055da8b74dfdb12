//! The words of the command line.

use crate::compare::{Lines, Served};
use crate::functions::{ELIMINATIONS, LATER, NUMBERS};
use crate::generate::{Kind, List, KINDS};

/// `--name value` pairs.
pub struct Options(Vec<(String, String)>);

const NAMES: [&str; 8] = ["--program", "--lines", "--kind", "--count", "--seed", "--numbers", "--types", "--out"];

impl Options {
    pub fn read(words: &[String]) -> Result<Self, String> {
        let mut pairs = Vec::new();
        for pair in words.chunks(2) {
            let [name, value] = pair else {
                return Err(format!("{} lacks its value", pair[0]));
            };
            if !NAMES.contains(&name.as_str()) {
                return Err(format!("{name} is no option; the options are {}", NAMES.join(" ")));
            }
            pairs.push((name.clone(), value.clone()));
        }
        Ok(Self(pairs))
    }

    pub fn find(&self, name: &str) -> Option<&str> {
        self.0.iter().find(|pair| pair.0 == name).map(|pair| pair.1.as_str())
    }

    pub fn need(&self, name: &str) -> Result<&str, String> {
        self.find(name).ok_or(format!("{name} is missing"))
    }

    pub fn whole(&self, name: &str) -> Result<u64, String> {
        whole(self.need(name)?)
    }

    pub fn lines(&self) -> Result<Lines, String> {
        match self.need("--lines")? {
            "frames" => Ok(Lines::Frames),
            "functions" => Ok(Lines::Functions),
            "records" => Ok(Lines::Records),
            other => Err(format!("--lines is frames, functions or records, not {other}")),
        }
    }

    /// All frame types are served, unless some are named.
    pub fn served(&self) -> Served {
        let types = self.find("--types").unwrap_or("01,02,03");
        Served { types: types.split(',').map(str::to_string).collect() }
    }

    pub fn list(&self) -> Result<List, String> {
        list(self.need("--kind")?, self.need("--count")?, self.need("--seed")?, self.find("--numbers"))
    }
}

pub fn list_of_words(words: &[String]) -> Result<List, String> {
    match words {
        [kind, count, seed] => list(kind, count, seed, None),
        [kind, count, seed, numbers] => list(kind, count, seed, Some(numbers)),
        _ => Err("generate takes KIND COUNT SEED [NUMBERS]".to_string()),
    }
}

fn list(kind: &str, count: &str, seed: &str, numbers: Option<&str>) -> Result<List, String> {
    let (kind, mut numbers) = (kind_of(kind)?, numbers.map_or(Ok(NUMBERS.to_vec()), numbers_of)?);
    if kind == Kind::Matrices {
        numbers.retain(|number| ELIMINATIONS.contains(number));
        if numbers.is_empty() {
            return Err("matrices are lines of the functions 40, 41 and 46".to_string());
        }
    }
    Ok(List { kind, count: whole(count)?, seed: whole(seed)?, numbers })
}

fn kind_of(text: &str) -> Result<Kind, String> {
    let found = KINDS.iter().find(|(name, _)| *name == text);
    found.map(|(_, kind)| *kind).ok_or(format!("{text} is no kind of line"))
}

fn whole(text: &str) -> Result<u64, String> {
    text.parse().map_err(|_| format!("{text} is no whole number"))
}

/// Such as 10-17,20: the numbers of the table in these ranges; one of the later numbers only where it stands by itself.
fn numbers_of(text: &str) -> Result<Vec<u8>, String> {
    let mut found = Vec::new();
    for part in text.split(',') {
        let (low, high) = part.split_once('-').unwrap_or((part, part));
        let (low, high) = (whole(low)?, whole(high)?);
        let before = found.len();
        found.extend(NUMBERS.iter().filter(|&&number| (low..=high).contains(&number.into())));
        found.extend(LATER.iter().filter(|&&number| [low, high] == [number.into(); 2]));
        if found.len() == before {
            return Err(format!("{part} names no function"));
        }
    }
    Ok(found)
}
