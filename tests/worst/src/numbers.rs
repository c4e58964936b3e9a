//! Numbers of every scale: where a drawing lies, and how large it is there.
use crate::rng::Rng;

/// A place and a size.
pub struct Place {
    pub offset: [f64; 3],
    pub size: f64,
}

/// Offset ÷ size from 1 to 2⁵², or no offset; round and odd ones; as typed, or at any scale.
pub fn place(rng: &mut Rng) -> Place {
    match rng.below(4) {
        0 => typed(rng),
        1 => Place { offset: [0.0; 3], size: scale(rng) * mantissa(rng) },
        _ => far(rng),
    }
}

/// Numbers as people type them: (123.456, 234.567, 345.678) or (128, 256, 512), and a size of a few digits.
fn typed(rng: &mut Rng) -> Place {
    let odd = rng.one_in(2);
    let mut offset = [0.0; 3];
    offset.fill_with(|| {
        let x = if odd { rng.between(1, 999_999) as f64 / 1000.0 } else { (1u64 << rng.below(16)) as f64 };
        sign(rng) * x
    });
    Place { offset, size: rng.between(1, 9) as f64 * 10f64.powi(-(rng.between(0, 14) as i32)) }
}

/// An offset of so many sizes, in all axes or in some.
fn far(rng: &mut Rng) -> Place {
    let scale = scale(rng);
    let times = 2f64.powi(rng.between(0, 52) as i32);
    let round = rng.one_in(2);
    let some = rng.pick(&[7, 7, 7, 1, 2, 4, 3, 5, 6]);
    let mut offset = [0.0; 3];
    for (i, x) in offset.iter_mut().enumerate() {
        let m = if round { rng.pick(&[1.0, 0.5, 0.75, 1.5]) } else { mantissa(rng) };
        *x = if some >> i & 1 == 1 { sign(rng) * scale * times * m } else { 0.0 };
    }
    Place { offset, size: scale * if rng.one_in(2) { 1.0 } else { mantissa(rng) } }
}

/// Ordinary ones most often; powers of two and ten over the whole range; subnormals.
fn scale(rng: &mut Rng) -> f64 {
    match rng.below(8) {
        0..=3 => 1.0,
        4 => 2f64.powi(rng.between(0, 200) as i32 - 100),
        5 => 10f64.powi(rng.between(0, 250) as i32 - 100),
        6 => 10f64.powi(-(rng.between(100, 307) as i32)),
        _ => f64::from_bits(1 << rng.below(52)),
    }
}

/// A float from 1 up to 2.
pub fn mantissa(rng: &mut Rng) -> f64 {
    1.0 + rng.unit()
}

pub fn sign(rng: &mut Rng) -> f64 {
    if rng.one_in(2) { 1.0 } else { -1.0 }
}

/// A part of a size: mostly of its order, now and then far smaller, or none.
pub fn part(rng: &mut Rng, size: f64) -> f64 {
    size * match rng.below(16) {
        0 => 2f64.powi(-(rng.between(1, 52) as i32)),
        1 => 1.0,
        2 if rng.one_in(4) => 0.0,
        _ => mantissa(rng) / 2.0,
    }
}
