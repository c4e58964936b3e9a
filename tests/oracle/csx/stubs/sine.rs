//! Sine and cosine as docs/SCOPE.md, "Sine and cosine", defines them. Each operation rounds once.

/// The float PI/2.
const FRAC_PI_2: f64 = f64::from_bits(0x3FF921FB54442D18);

const H: f64 = f64::from_bits(0x3FE45F306DC9C883);
const A: f64 = f64::from_bits(0x3FF921FB54400000);
const B: f64 = f64::from_bits(0x3DD0B4611A600000);
const C: f64 = f64::from_bits(0x3BA3198A2E037073);

/// 1, −1/first!, 1/(first + 2)!, …: nine coefficients, each ±1 divided once by the factorial.
const fn coefficients(first: u64) -> [f64; 9] {
    let mut out = [1.0; 9];
    let (mut term, mut number, mut factorial) = (1, 1, 1);
    while term <= 8 {
        while number < first + 2 * (term - 1) {
            number += 1;
            factorial *= number;
        }
        let sign = if term % 2 == 0 { 1.0 } else { -1.0 };
        out[term as usize] = sign / factorial as f64;
        term += 1;
    }
    out
}

const SINE: [f64; 9] = coefficients(3);
const COSINE: [f64; 9] = coefficients(2);

/// Horner from the last term.
fn horner(z: f64, coefficients: &[f64; 9]) -> f64 {
    let mut sum = coefficients[8];
    for term in (0..8).rev() {
        sum = sum * z + coefficients[term];
    }
    sum
}

/// (sine, cosine): exact at the nine quarter points, else the formula's.
pub fn sin_cos(x: f64) -> (f64, f64) {
    for m in -4i32..=4 {
        // The product is rounded once. Floats are compared, so that −0.0 is a quarter point too.
        if x == m as f64 * FRAC_PI_2 {
            return match m.rem_euclid(4) {
                0 => (0.0, 1.0),
                1 => (1.0, 0.0),
                2 => (0.0, -1.0),
                _ => (-1.0, 0.0),
            };
        }
    }
    formula(x)
}

/// (sine, cosine) without the quarter points; a pair of NaNs where x is not finite.
pub fn formula(x: f64) -> (f64, f64) {
    if !x.is_finite() {
        return (f64::NAN, f64::NAN);
    }
    // `round` takes halves away from zero. q is a whole number: it has no zero with a sign.
    let q = (x * H).round() + 0.0;
    let r = ((x - q * A) - q * B) - q * C;
    let z = r * r;
    let s = r * horner(z, &SINE);
    let c = horner(z, &COSINE);
    match q.rem_euclid(4.0) as u8 {
        0 => (s, c),
        1 => (c, -s),
        2 => (-s, -c),
        _ => (-c, s),
    }
}
