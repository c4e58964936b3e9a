//! Floats: signed zeros, small whole numbers, ordinary, tiny, subnormal and huge ones, angles, random bits.
use crate::rng::Rng;
use std::f64::consts::{FRAC_PI_2, PI, TAU};

/// How the numbers of one case are drawn.
#[derive(Clone, Copy, PartialEq)]
pub enum Style {
    Whole,
    Ordinary,
    Mixed,
    Tiny,
    Huge,
    Bits,
}

pub fn style(rng: &mut Rng) -> Style {
    match rng.below(20) {
        0..=7 => Style::Whole,
        8..=13 => Style::Ordinary,
        14..=16 => Style::Mixed,
        17 => Style::Tiny,
        18 => Style::Huge,
        _ => Style::Bits,
    }
}

pub fn number(rng: &mut Rng, style: Style) -> f64 {
    match style {
        Style::Whole => rng.between(0, 8) as f64 - 4.0,
        Style::Ordinary => 20.0 * rng.unit() - 10.0,
        Style::Mixed => mixed(rng),
        Style::Tiny => tiny(rng),
        Style::Huge => sign(rng) * rng.unit() * 10f64.powi(rng.between(150, 308) as i32),
        Style::Bits => bits(rng),
    }
}

/// Mostly above zero: a radius, a width, a length.
pub fn size(rng: &mut Rng, style: Style) -> f64 {
    let x = number(rng, style);
    if rng.one_in(6) { x } else { x.abs() }
}

pub fn sign(rng: &mut Rng) -> f64 {
    if rng.one_in(2) { 1.0 } else { -1.0 }
}

fn mixed(rng: &mut Rng) -> f64 {
    match rng.below(8) {
        0 => 0.0,
        1 => -0.0,
        2 => number(rng, Style::Whole),
        3 => near(rng, 1.0),
        4 => tiny(rng),
        5 => number(rng, Style::Huge),
        6 => sign(rng) * 10f64.powi(rng.between(0, 32) as i32 - 16),
        _ => number(rng, Style::Ordinary),
    }
}

fn tiny(rng: &mut Rng) -> f64 {
    let bits = match rng.below(3) {
        0 => rng.between(0, 4) as u64,
        1 => rng.bits() >> 12,
        _ => rng.bits() >> rng.between(4, 11),
    };
    sign(rng) * f64::from_bits(bits & 0x3FFF_FFFF_FFFF_FFFF)
}

/// A finite float with random bits, seldom one that is not finite. A NaN has the bits that cases allow.
fn bits(rng: &mut Rng) -> f64 {
    let mut x = f64::from_bits(rng.bits());
    if !x.is_finite() && !rng.one_in(4) {
        x = f64::from_bits(x.to_bits() & !(1 << 62));
    }
    if x.is_nan() { f64::from_bits(0x7FF8_0000_0000_0000) } else { x }
}

/// A float at most two steps from x.
pub fn near(rng: &mut Rng, x: f64) -> f64 {
    match rng.below(5) {
        0 => x.next_up(),
        1 => x.next_down(),
        2 => x.next_up().next_up(),
        3 => x.next_down().next_down(),
        _ => x,
    }
}

pub fn not_finite(rng: &mut Rng) -> f64 {
    rng.pick(&[f64::INFINITY, f64::NEG_INFINITY, f64::from_bits(0x7FF8_0000_0000_0000)])
}

/// Makes one float of a list not finite.
pub fn spoil(rng: &mut Rng, list: &mut [f64]) {
    if !list.is_empty() {
        let at = rng.below(list.len());
        list[at] = not_finite(rng);
    }
}

/// A quarter point: m × PI/2, rounded once, for m from −4 to 4; a zero has either sign.
pub fn quarter_point(rng: &mut Rng) -> f64 {
    sign(rng) * (rng.between(0, 4) as f64 * FRAC_PI_2)
}

/// An angle, within ±1,000 or just beyond.
pub fn angle(rng: &mut Rng) -> f64 {
    let quarter = quarter_point(rng);
    match rng.below(12) {
        0..=2 => quarter,
        3 => near(rng, quarter),
        4 => 2000.0 * rng.unit() - 1000.0,
        5 => edge(rng),
        6 => tiny(rng),
        7 => PI / 6.0 * rng.between(0, 24) as f64,
        _ => TAU * (2.0 * rng.unit() - 1.0),
    }
}

/// On or next to the greatest angle that is accepted.
fn edge(rng: &mut Rng) -> f64 {
    let x = match rng.below(6) {
        0 => 1000f64.next_up(),
        1 => 1000f64.next_down(),
        2 => 1008.0 * rng.unit(),
        _ => 1000.0,
    };
    sign(rng) * x
}

/// An angle in degrees: quarters, also beyond a turn, and the edge that 1,000 radians is.
pub fn degrees(rng: &mut Rng) -> f64 {
    let edge = sign(rng) * 1000f64.to_degrees();
    let quarter = sign(rng) * 90.0 * rng.between(0, 6) as f64;
    match rng.below(8) {
        0 => near(rng, edge),
        1..=2 => quarter,
        3 => near(rng, quarter),
        4 => sign(rng) * 60_000.0 * rng.unit(),
        _ => 720.0 * rng.unit() - 360.0,
    }
}

/// Two angles: any, often a full turn apart or nearly so, or both quarter points.
pub fn angles(rng: &mut Rng) -> (f64, f64) {
    let start = angle(rng);
    let span = match rng.below(12) {
        0..=1 => TAU,
        2 => near(rng, TAU),
        3 => near(rng, TAU - 1e-12),
        4 => TAU - 1e-12 * (0.9 + 0.2 * rng.unit()),
        5 => near(rng, 0.0),
        6 => PI,
        7 => return (start, angle(rng)),
        8..=9 => return (quarter_point(rng), quarter_point(rng)),
        _ => TAU * rng.unit(),
    };
    if rng.one_in(3) { (start, start - span) } else { (start, start + span) }
}
