//! Whether the mean of a record is the one that its residual was made with: for rendered corners the residual is worked out
//! again, in double precision, from the model of docs/RULES.md, Ring, at the words of the answer.

use crate::compare::Running;
use crate::corners::RINGS;
use crate::generate::corners::Corner;
use crate::wire::{from_bits, words};
use std::io;

/// The greatest difference from the reported rms that passes, in grey levels; of 100,000 corners none is over 0.00001.
const MOST: f64 = 0.0001;
/// Slope of the model.
const SLOPE: f64 = 4.0;

/// The words of a record, and the ring it was asked for.
struct Record {
    samples: Vec<f64>,
    angles: Vec<f64>,
    amp: f64,
    axes: [f64; 2],
    rms: f64,
    mean: f64,
}

impl Record {
    /// Nothing where the answer is no fit.
    fn read(line: &[u8], answer: &[u8]) -> Option<Self> {
        let floats = |text: &[u8]| Some(words(text)?.into_iter().map(|bits| f64::from(from_bits(bits))).collect::<Vec<_>>());
        let (values, fit) = (floats(&line[2..])?, floats(answer.get(..56)?)?);
        let (samples, angles) = values.split_at(values.len() / 2);
        (answer.len() == 88).then(|| Self {
            samples: samples.to_vec(),
            angles: angles.to_vec(),
            amp: fit[0],
            axes: [fit[1], fit[2]],
            rms: fit[5],
            mean: fit[6],
        })
    }

    fn mean_of_samples(&self) -> f64 {
        self.samples.iter().sum::<f64>() / self.samples.len() as f64
    }

    /// The root mean square of the samples less the model, with a mean.
    fn rms_with(&self, mean: f64) -> f64 {
        let edge = |phi: f64, axis: f64| (SLOPE * (phi - axis).sin()).tanh();
        let square = |(sample, &phi): (&f64, &f64)| {
            let model = mean + self.amp * self.axes.map(|axis| edge(phi, axis)).iter().product::<f64>();
            (sample - model) * (sample - model)
        };
        (self.samples.iter().zip(&self.angles).map(square).sum::<f64>() / self.samples.len() as f64).sqrt()
    }
}

#[derive(Default)]
struct Found {
    /// How far the residual is from the reported one, with the mean of the record and with that of the samples.
    residuals: [Vec<f64>; 2],
    /// How far these two means are from the brightness that was drawn.
    means: [Vec<f64>; 2],
}

impl Found {
    fn note(&mut self, corner: &Corner, record: &Record) {
        for (which, mean) in [record.mean, record.mean_of_samples()].into_iter().enumerate() {
            self.residuals[which].push((record.rms_with(mean) - record.rms).abs());
            self.means[which].push((mean - corner.mean).abs());
        }
    }
}

fn median_and_largest(values: &mut [f64]) -> (f64, f64) {
    values.sort_by(f64::total_cmp);
    (values.get(values.len() / 2).copied().unwrap_or(f64::NAN), values.last().copied().unwrap_or(f64::NAN))
}

/// False where a residual differs by more than `MOST`, where an answer is no fit, or where the mean of the samples would pass
/// for most rings: then the test would tell nothing.
pub fn means(program: &str, count: u64, seed: u64) -> io::Result<bool> {
    let lines = move |index: u64| RINGS.map(|ring| Corner::new(seed, index).line(ring.points, ring.which));
    let mut running = Running::start(program, (0..count).flat_map(lines))?;
    let mut found = [const { Found { residuals: [Vec::new(), Vec::new()], means: [Vec::new(), Vec::new()] } }; RINGS.len()];
    let mut good = count > 0;
    for index in 0..count {
        for (line, found) in lines(index).iter().zip(&mut found) {
            let answer = running.next_answer()?.unwrap_or_default();
            match Record::read(line, &answer) {
                Some(record) => found.note(&Corner::new(seed, index), &record),
                None => good = false,
            }
        }
    }
    println!("{count} rendered corners; grey levels (at most {MOST} between the rms reported and the one worked out with the mean):");
    for (ring, found) in RINGS.iter().zip(&mut found) {
        let told = found.residuals[1].iter().filter(|&&x| x > MOST).count();
        let [(_, largest), (other, _)] = found.residuals.each_mut().map(|x| median_and_largest(x));
        let [(mean, most), (samples, farthest)] = found.means.each_mut().map(|x| median_and_largest(x));
        println!("{}: largest {largest:.6}; with the mean of the samples median {other:.3}, over the bar {told} times", ring.name);
        println!("    off the drawn brightness: median {mean:.2}, largest {most:.2}; the samples' mean {samples:.2}, {farthest:.2}");
        good &= largest <= MOST && told as u64 > count / 2;
    }
    Ok(running.end()? && good)
}
