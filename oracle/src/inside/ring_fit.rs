//! Child module of ring_fit/mod.rs: opens the private parts to the harness, over plain arrays.
use super::TwoAxisFit;
use shapes::Fit6;

pub use super::robust::inside as robust;
pub use super::seed::inside as seed;
pub use super::solver::inside as solver;

pub(crate) fn to_words(fit: TwoAxisFit) -> Fit6 {
    [fit.amp, fit.theta1, fit.theta2, fit.fit_std_error_theta1, fit.fit_std_error_theta2, fit.rms]
}

pub(crate) fn from_words(words: Fit6) -> TwoAxisFit {
    let [amp, theta1, theta2, fit_std_error_theta1, fit_std_error_theta2, rms] = words;
    TwoAxisFit { amp, theta1, theta2, fit_std_error_theta1, fit_std_error_theta2, rms }
}
