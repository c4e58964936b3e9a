//! Random soups. The points are those of a place, or have bits that are equal but for some; the triangles name them in several orders.
use crate::drawings::Input;
use crate::numbers::{place, sign};
use crate::rng::Rng;

fn size(rng: &mut Rng) -> usize {
    if rng.one_in(100) { rng.between(100_000, 300_000) } else { rng.between(500, 30_000) }
}

/// Points of a lattice or random ones, nearly equal where the offset is large.
pub fn soup(rng: &mut Rng) -> (Input, String) {
    let (n, at) = (size(rng), place(rng));
    let side = rng.between(1, 300);
    let lattice = rng.one_in(2);
    let axes = rng.between(1, 7);
    let mut point = |i: usize| {
        let steps = [i % side, i / side % side, i / side / side];
        let by = |k: usize, u: f64| match axes >> k & 1 {
            0 => at.offset[k],
            _ if lattice => at.offset[k] + at.size * steps[k] as f64,
            _ => at.offset[k] + at.size * u,
        };
        [by(0, rng.unit()), by(1, rng.unit()), by(2, rng.unit())]
    };
    let points: Vec<_> = (0..n).map(&mut point).collect();
    let (list, order) = triangles(rng, &points, n);
    let what = if lattice { "lattice" } else { "random" };
    (
        Input::Soup(list),
        format!("{what} points, axes {axes:03b}, side {side}, at {:?}, size {:?}, {order}", at.offset, at.size),
    )
}

/// Which bits of the coordinates differ.
#[derive(Clone, Copy, Debug)]
enum Bits {
    /// The lowest.
    Low,
    /// The highest below the sign.
    High,
    /// Those from a place on.
    From(u32),
    /// Multiples of a number.
    Stride(u64),
    /// Subnormals.
    Tiny,
    /// The sign, and few others.
    Sign,
    /// Whole multiples of a power of two.
    Whole(i32),
    /// All.
    Any,
}

/// Points whose coordinates have equal bits but for some, in one axis or in more; or the same coordinates in another order.
pub fn patterned(rng: &mut Rng) -> (Input, String) {
    let n = size(rng);
    let bits = match rng.below(8) {
        0 => Bits::Low,
        1 => Bits::High,
        2 => Bits::From(rng.between(0, 44) as u32),
        3 => Bits::Stride((rng.bits() | 1) >> rng.between(12, 60)),
        4 => Bits::Tiny,
        5 => Bits::Sign,
        6 => Bits::Whole(rng.between(0, 600) as i32 - 300),
        _ => Bits::Any,
    };
    let base = f64::from_bits((rng.between(1, 2000) as u64) << 52 | if rng.one_in(2) { 0 } else { rng.bits() >> 12 });
    let side = rng.pick(&[2, 3, 16, 100, 1000, n]);
    let axes = rng.pick(&[1, 2, 4, 3, 5, 6, 7, 7, 7]);
    let shift = rng.below(4);
    let mut point = |i: usize| {
        let mut p = [base; 3];
        let steps = [i % side, i / side % side, i / side / side];
        for k in 0..3 {
            if axes >> k & 1 == 1 {
                // The three axes count differently, or all alike.
                p[k] = coordinate(rng, bits, base, if shift == 0 { i } else { steps[(k + shift) % 3] });
            }
        }
        p
    };
    let points: Vec<_> = (0..n).map(&mut point).collect();
    let (list, order) = triangles(rng, &points, n);
    (Input::Soup(list), format!("{bits:?}, axes {axes:03b}, side {side}, shift {shift}, base {base:?}, {order}"))
}

/// The i-th coordinate of a pattern.
fn coordinate(rng: &mut Rng, bits: Bits, base: f64, i: usize) -> f64 {
    let i = i as u64;
    let finite = |b: u64| if f64::from_bits(b).is_finite() { f64::from_bits(b) } else { base };
    match bits {
        Bits::Low => finite(base.to_bits() ^ i),
        Bits::High => finite(base.to_bits() ^ (i.reverse_bits() >> 1)),
        Bits::From(k) => finite(base.to_bits() ^ i << k),
        Bits::Stride(s) => finite(base.to_bits().wrapping_add(i.wrapping_mul(s)) >> 1),
        Bits::Tiny => f64::from_bits(i),
        Bits::Sign => sign(rng) * f64::from_bits(base.to_bits() ^ (i / 64)),
        Bits::Whole(e) => i as f64 * 2f64.powi(e),
        Bits::Any => finite(rng.bits()),
    }
}

/// n triangles over the points: a strip, a fan, random ones, or each point used once.
fn triangles(rng: &mut Rng, points: &[[f64; 3]], n: usize) -> (Vec<f64>, &'static str) {
    let m = points.len();
    let order = rng.below(5);
    let mut corner = |t: usize, c: usize| match order {
        0 => (t + c) % m,
        1 => {
            if c == 0 {
                0
            } else {
                (t + c) % m
            }
        }
        2 => rng.below(m),
        3 => (3 * t + c) % m,
        _ => (t / 2 + [[0, 1, 101], [1, 102, 101]][t % 2][c]) % m,
    };
    let list = (0..n).flat_map(|t| [corner(t, 0), corner(t, 1), corner(t, 2)]).flat_map(|i| points[i]).collect();
    (list, ["strip", "fan", "random triangles", "each point once", "rows"][order])
}
