//! Inputs by groups.
use crate::rng::Rng;
use std::f64::consts::FRAC_PI_2;

/// H of docs/SCOPE.md, T1, near 2 / PI.
pub const H: f64 = f64::from_bits(0x3FE4_5F30_6DC9_C883);

pub struct Group {
    pub name: &'static str,
    pub draw: fn(&mut Rng) -> Vec<f64>,
    /// The first draw has all inputs of the group.
    pub whole: bool,
}

const fn drawn(name: &'static str, draw: fn(&mut Rng) -> Vec<f64>) -> Group {
    Group { name, draw, whole: false }
}

const fn whole(name: &'static str, draw: fn(&mut Rng) -> Vec<f64>) -> Group {
    Group { name, draw, whole: true }
}

pub const ROOT: [Group; 8] = [
    whole("powers of two", powers),
    whole("ends of ranges", ends),
    drawn("random bits", random_bits),
    drawn("not negative", |rng| vec![f64::from_bits(rng.bits() >> 1)]),
    drawn("subnormal", subnormal),
    drawn("squares of whole numbers", squares),
    drawn("squares of floats", float_squares),
    drawn("squares of midpoints", midpoints),
];

pub const SINE: [Group; 8] = [
    whole("quarter points", quarter_points_and_neighbours),
    drawn("random bits", random_bits),
    drawn("within 1,008", |rng| vec![2016.0 * rng.unit() - 1008.0]),
    drawn("within a turn", |rng| vec![6.4 * (2.0 * rng.unit() - 1.0)]),
    drawn("subnormal and small", small),
    drawn("multiples of PI/2", quarters),
    drawn("ties of q", ties),
    drawn("large", large),
];

fn random_bits(rng: &mut Rng) -> Vec<f64> {
    vec![f64::from_bits(rng.bits())]
}

fn subnormal(rng: &mut Rng) -> Vec<f64> {
    vec![f64::from_bits(rng.bits() >> rng.between(12, 63))]
}

/// x and the floats up to `steps` before and after it.
fn around(x: f64, steps: usize) -> Vec<f64> {
    let (mut down, mut up, mut out) = (x, x, vec![x]);
    for _ in 0..steps {
        (down, up) = (down.next_down(), up.next_up());
        out.extend([down, up]);
    }
    out
}

/// m × 2^e, where that is a float.
fn scaled(m: f64, e: i32) -> f64 {
    let half = e / 2;
    m * 2f64.powi(half) * 2f64.powi(e - half)
}

/// A float with plus sign whose exponent's field is from a to b: 0 for subnormals, 1 to 2046 for normal numbers.
pub fn with_field(rng: &mut Rng, a: usize, b: usize) -> f64 {
    f64::from_bits((rng.between(a, b) as u64) << 52 | rng.bits() >> 12)
}

/// All powers of two that are floats and their neighbours, of both signs.
fn powers(_: &mut Rng) -> Vec<f64> {
    (-1074..=1023).flat_map(|e| around(scaled(1.0, e), 1)).flat_map(|x| [x, -x]).collect()
}

/// Zeros, infinities, NaNs quiet and signalling, the ends of the subnormal and of the normal range, of both signs.
fn ends(_: &mut Rng) -> Vec<f64> {
    let mut out = vec![f64::INFINITY, f64::NAN];
    for nan in [0x7FF0_0000_0000_0001, 0x7FF4_0000_0000_0000, 0x7FF7_FFFF_FFFF_FFFF, 0x7FF8_0000_0000_0001, !0 >> 1] {
        out.push(f64::from_bits(nan));
    }
    for end in [0.0, f64::MIN_POSITIVE, f64::MAX] {
        out.extend(around(end, 3));
    }
    out.into_iter().flat_map(|x| [x, -x]).collect()
}

/// Squares of whole numbers below 2^26, by an even power of two, and their neighbours.
fn squares(rng: &mut Rng) -> Vec<f64> {
    let k = (rng.bits() >> rng.between(38, 63)) as f64;
    around(scaled(k * k, 2 * (rng.between(0, 1000) as i32 - 530)), 1)
}

/// Rounded squares of floats from 2^-538 up to 2^512, beyond which none is finite and above zero, and their neighbours.
fn float_squares(rng: &mut Rng) -> Vec<f64> {
    let y = with_field(rng, 485, 1534);
    around(y * y, 1)
}

/// The floats nearest to the square of a midpoint of two neighbouring roots: where rounding is hardest to decide.
fn midpoints(rng: &mut Rng) -> Vec<f64> {
    let root = (1u64 << 52) | (rng.bits() >> 12);
    let twice = 2 * root as u128 + 1;
    // The square of the midpoint × 4; to 53 digits by the conversion.
    let square = (twice * twice) as f64;
    around(scaled(square, 2 * (rng.between(0, 900) as i32 - 540)), 1)
}

fn small(rng: &mut Rng) -> Vec<f64> {
    let x = f64::from_bits((rng.bits() >> rng.between(2, 63)) & 0x3FFF_FFFF_FFFF_FFFF);
    vec![x, -x]
}

/// The nine quarter points: m × PI/2, rounded once, for m from −4 to 4.
pub fn quarter_points() -> [f64; 9] {
    std::array::from_fn(|i| (i as f64 - 4.0) * FRAC_PI_2)
}

/// The quarter points, zero with both signs, and the three floats on both sides of each: those next to zero are subnormal.
fn quarter_points_and_neighbours(_: &mut Rng) -> Vec<f64> {
    let all = quarter_points().into_iter().flat_map(|x| around(x, 3));
    all.chain([-0.0]).collect()
}

fn quarters(rng: &mut Rng) -> Vec<f64> {
    let k = match rng.below(3) {
        0 => rng.between(0, 16) as f64,
        1 => rng.between(0, 700) as f64,
        _ => (rng.bits() >> rng.between(11, 55)) as f64,
    };
    let sign = if rng.one_in(2) { -1.0 } else { 1.0 };
    around(sign * k * FRAC_PI_2, 3)
}

/// Where x × H is a half more than a whole number, or next to it.
fn ties(rng: &mut Rng) -> Vec<f64> {
    let k = match rng.below(3) {
        0 => rng.between(0, 700) as f64,
        1 => rng.between(0, 100_000) as f64,
        _ => (rng.bits() >> rng.between(12, 55)) as f64,
    };
    let sign = if rng.one_in(2) { -1.0 } else { 1.0 };
    around(sign * (k + 0.5) / H, 3)
}

/// Beyond 2^50, where q is the product itself; around 2^52, 2^53 and 2^63 and at the end.
fn large(rng: &mut Rng) -> Vec<f64> {
    let power = 2f64.powi(rng.pick(&[50, 51, 52, 53, 54, 62, 63, 64, 1022, 1023]));
    let sign = if rng.one_in(2) { -1.0 } else { 1.0 };
    let mut out = around(sign * power / H, 3);
    out.push(sign * scaled(1.0 + rng.unit(), rng.between(48, 1022) as i32));
    out.extend([f64::INFINITY, f64::NEG_INFINITY, f64::NAN, 0.0, -0.0]);
    out
}
