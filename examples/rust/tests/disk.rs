//! Disk fits through the wrapper: a corner with known axes, and every refusal at its place.

use core::f32::consts::{FRAC_PI_2, PI, TAU};
use jengubool::{fit_disk, Disk, DiskFit, Number, Refusal, MOST_PIXELS};

const fn refused(number: Number, place: u16) -> Result<DiskFit, Refusal> {
    Err(Refusal { number, place })
}

/// A disk that owns its pixels, so that a test can spoil one.
#[derive(Clone)]
struct Owned {
    head: [f32; 3],
    runs: [Vec<f32>; 5],
}

impl Owned {
    /// As many pixels without contrast.
    fn flat(n: usize) -> Self {
        Self { head: [0.0, 0.0, FRAC_PI_2], runs: core::array::from_fn(|_| vec![0.0; n]) }
    }

    fn lend(&self) -> Disk<'_> {
        let [val_energy, base0, base1] = self.head;
        let [xs, ys, vals_centered, grad_angles, grad_weights] = &self.runs;
        Disk { val_energy, base0, base1, xs, ys, vals_centered, grad_angles, grad_weights }
    }

    /// The value at a place of the refusals' count.
    fn at(&mut self, place: usize) -> &mut f32 {
        let n = self.runs[0].len();
        match place.checked_sub(3) {
            None => &mut self.head[place],
            Some(rest) => &mut self.runs[rest / n][rest % n],
        }
    }
}

/// A corner with soft edges along two axes (degrees), its gradients worked out from the model.
fn corner(axis1: f32, axis2: f32) -> Owned {
    let mut disk = Owned::flat(0);
    for (px, py) in (-8..=8).flat_map(|py| (-8..=8).map(move |px| (px, py))) {
        let (x, y) = (px as f32, py as f32);
        if (1.0..=64.0).contains(&(x * x + y * y)) {
            let pixel = pixel(x, y, axis1.to_radians(), axis2.to_radians());
            disk.runs.iter_mut().zip(pixel).for_each(|(run, value)| run.push(value));
        }
    }
    let mean = disk.runs[2].iter().sum::<f32>() / disk.runs[2].len() as f32;
    disk.runs[2].iter_mut().for_each(|value| *value -= mean);
    let energy = disk.runs[2].iter().map(|value| value * value).sum();
    disk.head = [energy, (axis1 - 6.0).to_radians(), (axis2 + 6.0).to_radians()];
    disk
}

fn pixel(x: f32, y: f32, axis1: f32, axis2: f32) -> [f32; 5] {
    const WIDTH: f32 = 0.7;
    let h = |axis: f32| ((axis.cos() * y - axis.sin() * x) / WIDTH).tanh();
    let (h1, h2) = (h(axis1), h(axis2));
    let (k1, k2) = (60.0 / WIDTH * (1.0 - h1 * h1) * h2, 60.0 / WIDTH * h1 * (1.0 - h2 * h2));
    let gx = -k1 * axis1.sin() - k2 * axis2.sin();
    let gy = k1 * axis1.cos() + k2 * axis2.cos();
    [x, y, 60.0 * h1 * h2, (gy.atan2(gx) + FRAC_PI_2).rem_euclid(PI), gx.hypot(gy)]
}

#[test]
fn axes_are_found_again() {
    for (axis1, axis2) in [(25.0, 80.0), (10.0, 100.0), (60.0, 130.0)] {
        let fit = fit_disk(&corner(axis1, axis2).lend()).unwrap();
        assert!((fit.theta1.to_degrees() - axis1).abs() < 1.0, "{fit:?}");
        assert!((fit.theta2.to_degrees() - axis2).abs() < 1.0, "{fit:?}");
        assert!((fit.amp - 60.0).abs() < 3.0 && fit.width == 0.7 && fit.corr > 0.99, "{fit:?}");
        let [error1, error2] = fit.errors().unwrap();
        assert!(error1 < 0.02 && error2 < 0.02, "{fit:?}");
    }
}

#[test]
fn an_answer_keeps_its_ranges() {
    for turn in 0..36 {
        let fit = fit_disk(&corner(turn as f32 * 5.0, turn as f32 * 5.0 + 70.0).lend()).unwrap();
        assert!((0.0..PI).contains(&fit.theta1) && (fit.theta1..TAU).contains(&fit.theta2), "{fit:?}");
        assert!((0.0..=PI).contains(&fit.error1) && (0.0..=PI).contains(&fit.error2), "{fit:?}");
        assert!(fit.amp >= 0.0 && fit.trials <= 144, "{fit:?}");
        assert_eq!(fit.objective, fit.rel_rms - 1.25 * fit.edge_score, "{fit:?}");
    }
}

#[test]
fn a_disk_without_contrast_is_refused_with_its_trials() {
    assert_eq!(fit_disk(&Owned::flat(1).lend()), refused(Number::NothingFound, 96));
}

#[test]
fn no_pixel_and_too_many_are_refused() {
    assert_eq!(fit_disk(&Owned::flat(0).lend()), refused(Number::PixelCount, 0));
    assert_eq!(fit_disk(&Owned::flat(MOST_PIXELS + 1).lend()), refused(Number::PixelCount, 0));
    assert_eq!(fit_disk(&Owned::flat(MOST_PIXELS).lend()), refused(Number::NothingFound, 96));
}

#[test]
fn slices_of_different_length_are_refused() {
    for run in 1..5 {
        for length in [0, 19, 21, 321] {
            let mut disk = Owned::flat(20);
            disk.runs[run] = vec![f32::NAN; length]; // lengths come before values
            assert_eq!(fit_disk(&disk.lend()), refused(Number::Length, 0));
        }
    }
}

/// The pixel count is that of `xs`, and comes before the other lengths.
#[test]
fn the_pixel_count_comes_before_the_lengths() {
    for (n, number) in [(0, Number::PixelCount), (321, Number::PixelCount), (19, Number::Length)] {
        let mut disk = Owned::flat(20);
        disk.runs[0] = vec![0.0; n];
        assert_eq!(fit_disk(&disk.lend()), refused(number, 0));
    }
}

#[test]
fn a_value_that_is_not_finite_is_refused_at_its_place() {
    let clean = corner(25.0, 80.0);
    let last = 3 + 5 * clean.runs[0].len() - 1;
    for place in 0..=last {
        let mut disk = clean.clone();
        *disk.at(place) = [f32::NAN, f32::INFINITY, f32::NEG_INFINITY][place % 3];
        *disk.at(last) = f32::NAN; // the first one counts
        assert_eq!(fit_disk(&disk.lend()), refused(Number::NotFinite, place as u16));
    }
}
