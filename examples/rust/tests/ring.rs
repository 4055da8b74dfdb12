//! Ring fits of 16 and of 24 samples through the wrapper: a known one each to the bit, one with known axes, and every
//! refusal at its place.

use core::f32::consts::{FRAC_PI_2, PI};
use jengubool::{fit_ring, fit_ring24, Number, Refusal, RingFit, RING24_SAMPLES, RING_SAMPLES};

const LENGTH: Refusal = Refusal { number: Number::Length, place: 0 };

type Fit = fn(&[f32], &[f32]) -> Result<RingFit, Refusal>;

/// Both rings, and how many samples each has.
const RINGS: [(usize, Fit); 2] = [(RING_SAMPLES, fit_ring), (RING24_SAMPLES, fit_ring24)];

fn bits(fit: RingFit) -> [u32; 7] {
    [fit.amp, fit.theta1, fit.theta2, fit.error1, fit.error2, fit.rms, fit.mean].map(f32::to_bits)
}

/// A noisy ring, as bits, and its answer.
const SAMPLES: [u32; 16] = [
    0x42ffc437, 0x42fb138e, 0x42fad948, 0x42fb2cfb, 0x42fdaf06, 0x4302dcb4, 0x4303b0c3, 0x43033509, //
    0x42ffab8e, 0x42fb2061, 0x42fa991e, 0x42fb20ac, 0x42fd2479, 0x4302c4bb, 0x43039b42, 0x430308c9,
];
const ANGLES: [u32; 16] = [
    0xbfc90fdb, 0xbf985b6c, 0xbf490fdb, 0xbec2d1bb, 0x00000000, 0x3ec2d1bb, 0x3f490fdb, 0x3f985b6c, //
    0x3fc90fdb, 0x3ff9c449, 0x4016cbe4, 0x4030b5a3, 0x40490fdb, 0xc030b5a3, 0xc016cbe4, 0xbff9c449,
];
const ANSWER: [u32; 7] = [0x404a131e, 0x3fc1c523, 0x405347ee, 0x3bee0dc1, 0x3c11bde0, 0x3dbb2787, 0x430088a1];

#[test]
fn a_known_ring_has_its_bits() {
    let fit = fit_ring(&SAMPLES.map(f32::from_bits), &ANGLES.map(f32::from_bits)).unwrap();
    assert_eq!(bits(fit), ANSWER);
    assert_eq!((fit.starts, fit.first_updates, fit.second_updates), (1, 3, 0));
    assert_eq!(fit.errors(), Some([fit.error1, fit.error2]));
}

/// Line 6 of examples/frames/rings24.txt, a skewed corner: whole grey values at every 15 degrees.
#[test]
fn a_known_ring_of_24_has_its_bits() {
    let samples = [
        186, 174, 128, 82, 77, 108, 164, 184, 187, 188, 188, 188, //
        186, 174, 128, 82, 77, 108, 164, 184, 187, 188, 188, 188,
    ];
    let angles: [f32; 24] = core::array::from_fn(|i| (i as f64 * core::f64::consts::PI / 12.0) as f32);
    let fit = fit_ring24(&samples.map(|grey: u8| f32::from(grey)), &angles).unwrap();
    assert_eq!(bits(fit), [0x4270ada8, 0x3f05e8d1, 0x3fb2ad95, 0x3a6584fc, 0x3a6e61fc, 0x3e68fbf7, 0x42ffd0cf]);
    assert_eq!((fit.starts, fit.first_updates, fit.second_updates, fit.errors_known), (2, 5, 3, true));
}

/// One sample of 1 and one angle of 100: both errors are estimated above PI, capped there, and known.
#[test]
fn capped_errors_are_known() {
    let (mut samples, mut angles) = ([0.0; RING_SAMPLES], [0.0; RING_SAMPLES]);
    (samples[8], angles[7]) = (1.0, 100.0);
    assert_eq!(fit_ring(&samples, &angles).unwrap().errors(), Some([PI, PI]));
}

#[test]
fn axes_are_found_again() {
    let edge = |a: f32, axis: f32| (4.0 * (a - axis.to_radians()).sin()).tanh();
    for (n, fit) in RINGS {
        let angles: Vec<f32> = (0..n).map(|i| i as f32 * 2.0 * PI / n as f32).collect();
        let samples: Vec<f32> = angles.iter().map(|&a| 128.0 + 60.0 * edge(a, 35.0) * edge(a, 120.0)).collect();
        let fit = fit(&samples, &angles).unwrap();
        assert!((fit.theta1.to_degrees() - 35.0).abs() < 0.01, "{fit:?}");
        assert!((fit.theta2.to_degrees() - 120.0).abs() < 0.01, "{fit:?}");
        assert!((fit.amp - 60.0).abs() < 0.01 && (fit.mean - 128.0).abs() < 0.01 && fit.rms < 0.01, "{fit:?}");
    }
}

#[test]
fn a_ring_without_contrast_has_no_errors() {
    for (n, fit) in RINGS {
        let fit = fit(&vec![-2.5; n], &vec![0.0; n]).unwrap();
        assert_eq!((fit.amp, fit.theta1, fit.theta2, fit.rms, fit.mean), (0.0, 0.0, FRAC_PI_2, 0.0, -2.5));
        assert_eq!((fit.error1, fit.error2, fit.errors()), (PI, PI, None));
        assert_eq!((fit.starts, fit.first_updates, fit.second_updates), (1, 0, 0));
    }
}

#[test]
fn a_value_that_is_not_finite_is_refused_at_its_place() {
    for (n, fit) in RINGS {
        for (place, wild) in (0..2 * n).flat_map(|p| [f32::NAN, f32::INFINITY, f32::NEG_INFINITY].map(|w| (p, w))) {
            let mut values = vec![0.0; 2 * n];
            values[place] = wild;
            values[2 * n - 1] = f32::NAN; // the first one counts
            let refusal = Refusal { number: Number::NotFinite, place: place as u16 };
            assert_eq!(fit(&values[..n], &values[n..]), Err(refusal));
        }
    }
}

/// A ring of 16 given to the fit for 24 is one of them, and so is the reverse.
#[test]
fn wrong_lengths_come_before_values() {
    let wild = [f32::NAN; 25];
    for (n, fit) in RINGS {
        for wrong in (0..=25).filter(|&length| length != n) {
            assert_eq!(fit(&wild[..wrong], &wild[..n]), Err(LENGTH));
            assert_eq!(fit(&wild[..n], &wild[..wrong]), Err(LENGTH));
            assert_eq!(fit(&wild[..wrong], &wild[..wrong]), Err(LENGTH));
        }
    }
}

#[test]
fn a_refusal_speaks() {
    let refusal = fit_ring(&[f32::NAN; 16], &[0.0; 16]).unwrap_err();
    assert_eq!(refusal.to_string(), "refused: a value is not finite (number 3, place 0)");
    let boxed: Box<dyn std::error::Error> = refusal.into();
    assert_eq!(boxed.to_string(), refusal.to_string());
}

#[test]
fn numbers_and_reasons_are_one_to_one() {
    for code in 0..=9 {
        assert_eq!(Number::from_code(code).code(), code);
        assert_eq!(matches!(Number::from_code(code), Number::Unknown(_)), !(1..=6).contains(&code));
    }
}
