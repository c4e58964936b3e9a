//! Outlines: round, star-shaped, comb-shaped, crossing, repeated and collinear ones, at scales from tiny to huge.
use super::floats::{self, Style};
use crate::rng::Rng;
use std::f64::consts::TAU;

/// A list of corners, two floats each.
pub fn outline(rng: &mut Rng) -> Vec<f64> {
    let n = corners(rng);
    let mut list = match rng.below(9) {
        0 => star(n, 1.0, 1.0),
        1 => star(n, 1.0, 0.1 + 0.8 * rng.unit()),
        2 => comb(n),
        3..=4 => grid(rng, n),
        5 => collinear(rng, n),
        6 => rectangle(rng, n),
        7 => drawn(rng, n),
        _ => walk(rng, n),
    };
    repeat_corners(rng, &mut list);
    if rng.one_in(3) {
        list.reverse();
    }
    let start = rng.below(list.len().max(1));
    list.rotate_left(start);
    scaled(rng, list.into_iter().flat_map(|(x, y)| [x, y]).collect())
}

fn corners(rng: &mut Rng) -> usize {
    match rng.below(200) {
        0 => 512,
        1 => 513,
        2..=5 => rng.between(64, 256),
        6..=25 => rng.between(13, 64),
        26..=40 => rng.between(0, 2),
        _ => rng.between(3, 12),
    }
}

/// Corners on two circles in turn.
fn star(n: usize, even: f64, odd: f64) -> Vec<(f64, f64)> {
    let at = |i: usize| {
        let (s, c) = (TAU * i as f64 / n as f64).sin_cos();
        let r = if i.is_multiple_of(2) { even } else { odd };
        (r * c, r * s)
    };
    (0..n).map(at).collect()
}

/// Teeth on a bar.
fn comb(n: usize) -> Vec<(f64, f64)> {
    let half = n / 2;
    let upper = (0..n - half).map(|i| (i as f64, if i.is_multiple_of(2) { 1.0 } else { 3.0 }));
    let lower = (0..half).map(|i| ((half - 1 - i) as f64, 0.0));
    lower.rev().chain(upper.rev()).collect()
}

/// Whole numbers: many repeated, collinear and crossing ones.
fn grid(rng: &mut Rng, n: usize) -> Vec<(f64, f64)> {
    let side = rng.between(1, 5);
    (0..n).map(|_| (rng.between(0, side) as f64 - 1.0, rng.between(0, side) as f64 - 1.0)).collect()
}

fn collinear(rng: &mut Rng, n: usize) -> Vec<(f64, f64)> {
    let (dx, dy) = (rng.between(0, 3) as f64, rng.between(0, 3) as f64 - 1.0);
    let mut list: Vec<_> = (0..n).map(|i| (dx * i as f64, dy * i as f64)).collect();
    if rng.one_in(2) {
        list.push((dx, dy + 1.0));
    }
    list
}

/// A rectangle with further corners on its sides.
fn rectangle(rng: &mut Rng, n: usize) -> Vec<(f64, f64)> {
    let (width, height) = (floats::size(rng, Style::Whole), floats::size(rng, Style::Whole));
    let side = n.div_ceil(4).max(1);
    let part = |i: usize| i as f64 / side as f64;
    let bottom = (0..side).map(|i| (width * part(i), 0.0));
    let right = (0..side).map(|i| (width, height * part(i)));
    let top = (0..side).map(|i| (width * part(side - i), height));
    let left = (0..side).map(|i| (0.0, height * part(side - i)));
    bottom.chain(right).chain(top).chain(left).collect()
}

/// Any floats.
fn drawn(rng: &mut Rng, n: usize) -> Vec<(f64, f64)> {
    let style = floats::style(rng);
    (0..n).map(|_| (floats::number(rng, style), floats::number(rng, style))).collect()
}

/// Steps along the axes.
fn walk(rng: &mut Rng, n: usize) -> Vec<(f64, f64)> {
    let (mut x, mut y) = (0.0, 0.0);
    let mut step = |i: usize| {
        let by = rng.between(0, 6) as f64 - 3.0;
        if i.is_multiple_of(2) {
            x += by
        } else {
            y += by
        }
        (x, y)
    };
    (0..n).map(&mut step).collect()
}

/// Doubles some corners, and now and then ends on the first.
fn repeat_corners(rng: &mut Rng, list: &mut Vec<(f64, f64)>) {
    if list.is_empty() || list.len() > 500 {
        return;
    }
    if rng.one_in(6) {
        for _ in 0..rng.between(1, 3) {
            let (from, to) = (rng.below(list.len()), rng.below(list.len()));
            let to = if rng.one_in(2) { from } else { to };
            list.insert(to, list[from]);
        }
    }
    if rng.one_in(10) {
        list.push(list[0]);
    }
}

/// At another scale, moved, or with zeros of both signs.
fn scaled(rng: &mut Rng, mut list: Vec<f64>) -> Vec<f64> {
    let by = match rng.below(16) {
        0 => 10f64.powi(rng.between(0, 40) as i32 - 20),
        1 => 10f64.powi(rng.between(150, 162) as i32),
        2 => 10f64.powi(rng.between(162, 308) as i32),
        3 => 10f64.powi(-(rng.between(140, 323) as i32)),
        _ => 1.0,
    };
    let move_by = if rng.one_in(8) { floats::number(rng, Style::Ordinary) } else { 0.0 };
    for x in &mut list {
        *x = *x * by + move_by;
        if !x.is_finite() {
            *x = f64::MAX.copysign(*x);
        }
        if *x == 0.0 && rng.one_in(4) {
            *x = -*x;
        }
    }
    list
}
