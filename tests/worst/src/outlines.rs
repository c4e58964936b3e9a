//! Outlines as polygons and extruded: spirals, combs, crossings, lines; huge and tiny numbers.
use crate::drawings::Input;
use crate::numbers::{place, sign};
use crate::rng::Rng;
use sides::ours::Solid;
use std::f64::consts::TAU;

type Corner = (f64, f64);

/// 512 corners, the most that are accepted.
pub fn large(rng: &mut Rng) -> (Input, String) {
    outline(rng, 512)
}

/// 3 to 40 corners.
pub fn small(rng: &mut Rng) -> (Input, String) {
    let n = rng.between(3, 40);
    outline(rng, n)
}

fn outline(rng: &mut Rng, n: usize) -> (Input, String) {
    let (name, corners): (_, Vec<Corner>) = match rng.below(10) {
        0 => ("spiral", spiral(rng, n)),
        1 => ("comb", comb(n, 1.0 + 9.0 * rng.unit())),
        2 => ("random crossings", (0..n).map(|_| (rng.unit(), rng.unit())).collect()),
        3 => ("crossings of whole numbers", whole(rng, n)),
        4 => ("line", line(rng, n, 0.0)),
        5 => ("nearly a line", line(rng, n, 1e-12)),
        6 => ("star", star(n, rng.unit())),
        7 => ("star that crosses itself", crossing_star(rng, n)),
        8 => ("steps", steps(rng, n)),
        _ => ("circle", star(n, 1.0)),
    };
    let (scale, at, what) = scaled(rng);
    let (turned, start) = (rng.one_in(2), rng.below(corners.len()));
    let mut list = corners;
    if turned {
        list.reverse();
    }
    list.rotate_left(start);
    let list = list.iter().flat_map(|c| [at[0] + scale * c.0, at[1] + scale * c.1]).map(finite).collect();
    let (d, flat) = (rng.below(3) as u8, rng.one_in(2));
    let solid = if flat { Solid::Polygon(d, 1.0, list) } else { Solid::Extruded(d, 1.0, 2.0, list) };
    let note = format!(
        "{name} of {n} corners, {what}, {}, reversed {turned}, from {start}",
        if flat { "polygon" } else { "extruded" }
    );
    (Input::Solid { solid, segments: 3, rings: 2 }, note)
}

fn finite(x: f64) -> f64 {
    if x.is_finite() { x } else { f64::MAX.copysign(x) }
}

/// As it is; huge or tiny; at a place of `numbers`.
fn scaled(rng: &mut Rng) -> (f64, [f64; 3], String) {
    match rng.below(6) {
        0 => {
            let e = rng.between(100, 308) as i32;
            (10f64.powi(e), [0.0; 3], format!("times 1e{e}"))
        }
        1 => {
            let e = rng.between(100, 323) as i32;
            (10f64.powi(-e), [0.0; 3], format!("times 1e-{e}"))
        }
        2 => {
            let at = place(rng);
            (at.size, at.offset, format!("at {:?}, size {:?}", at.offset, at.size))
        }
        _ => (1.0, [0.0; 3], "as it is".into()),
    }
}

fn polar(angle: f64, r: f64) -> Corner {
    (r * angle.cos(), r * angle.sin())
}

/// A band that winds inwards: out along one side, back along the other.
fn spiral(rng: &mut Rng, n: usize) -> Vec<Corner> {
    let (half, turns) = (n.div_ceil(2), 1.0 + 15.0 * rng.unit());
    let at = |i: usize, r: f64| polar(TAU * turns * i as f64 / half as f64, r + i as f64 / half as f64 * turns);
    (0..half).map(|i| at(i, 1.0)).chain((0..half).rev().map(|i| at(i, 1.5))).collect()
}

/// Teeth on a bar of a height.
fn comb(n: usize, height: f64) -> Vec<Corner> {
    let half = n.div_ceil(2);
    let lower = (0..half).map(|i| (i as f64, 0.0));
    lower
        .chain((0..half).rev().map(|i| (i as f64, height * 0.1 + if i.is_multiple_of(2) { 0.5 } else { 5.0 })))
        .collect()
}

fn whole(rng: &mut Rng, n: usize) -> Vec<Corner> {
    let side = rng.between(1, 40);
    (0..n).map(|_| (rng.between(0, side) as f64, rng.between(0, side) as f64)).collect()
}

/// Corners on a line, within a distance of it, in order or not; now and then one is off it.
fn line(rng: &mut Rng, n: usize, within: f64) -> Vec<Corner> {
    let (dx, dy) = (rng.unit(), sign(rng) * rng.unit());
    let (ordered, off) = (rng.one_in(2), rng.one_in(2));
    let mut corner = |i: usize| {
        let t = if ordered { i } else { rng.below(n) } as f64;
        (t * dx + within * rng.unit(), t * dy)
    };
    let mut list: Vec<_> = (0..n).map(&mut corner).collect();
    if off {
        list[0].1 += 1.0;
    }
    list
}

fn star(n: usize, inner: f64) -> Vec<Corner> {
    let r = |i: usize| if i.is_multiple_of(2) { 1.0 } else { inner };
    (0..n).map(|i| polar(TAU * i as f64 / n as f64, r(i))).collect()
}

/// Corners of a circle, each time several steps further.
fn crossing_star(rng: &mut Rng, n: usize) -> Vec<Corner> {
    let step = rng.between(2, (n / 2).max(2));
    (0..n).map(|i| polar(TAU * (i * step % n) as f64 / n as f64, 1.0)).collect()
}

/// Steps along the axes.
fn steps(rng: &mut Rng, n: usize) -> Vec<Corner> {
    let (mut x, mut y) = (0.0, 0.0);
    let mut step = |i: usize| {
        let by = rng.between(0, 6) as f64 - 3.0;
        if i.is_multiple_of(2) {
            x += by
        } else {
            y += by
        }
        (x, y)
    };
    (0..n).map(&mut step).collect()
}
