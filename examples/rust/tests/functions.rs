//! The elementary functions through the wrapper: each is wired to its own C function, arguments in the right order.

use core::f32::consts::PI;

fn near(got: f32, want: f64) {
    assert!((f64::from(got) - want).abs() <= 1.0 / 8_388_608.0, "{got} is not near to {want}");
}

#[test]
fn values_are_near_to_double_precision() {
    for i in -40..=40 {
        let x = i as f32 * 0.125;
        let wide = f64::from(x);
        near(jengubool::sin(x), wide.sin());
        near(jengubool::cos(x), wide.cos());
        near(jengubool::tanh(x), wide.tanh());
        near(jengubool::exp(-x.abs()), (-wide.abs()).exp());
        near(jengubool::sqrt(x.abs()), wide.abs().sqrt());
        assert_eq!(jengubool::narrow(wide / 3.0), (wide / 3.0) as f32);
    }
}

#[test]
fn the_first_argument_of_atan2_is_y() {
    assert_eq!(jengubool::atan2(0.0, 1.0), 0.0);
    assert_eq!(jengubool::atan2(1.0, 0.0), PI / 2.0);
    assert_eq!(jengubool::atan2(-0.0, -1.0), -PI);
}

#[test]
fn a_nan_stays_a_nan() {
    let functions = [jengubool::sin, jengubool::cos, jengubool::tanh, jengubool::exp, jengubool::sqrt];
    assert!(functions.iter().all(|f| f(f32::NAN).is_nan()));
    assert!(jengubool::atan2(f32::NAN, 1.0).is_nan() && jengubool::atan2(1.0, f32::NAN).is_nan());
    assert!(jengubool::narrow(f64::NAN).is_nan());
}
