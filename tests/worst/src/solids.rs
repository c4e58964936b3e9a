//! Random solids, each at a place of `numbers`.
use crate::drawings::Input;
use crate::numbers::{Place, mantissa, part, place, sign};
use crate::rng::Rng;
use sides::ours::Solid;
use std::f64::consts::TAU;

type Drawn = (Input, String);

fn drawn(solid: Solid, (segments, rings): (usize, usize), note: String) -> Drawn {
    (Input::Solid { solid, segments, rings }, note)
}

/// Segments and rings: mostly hundreds, rarely 1,024 of both.
fn resolution(rng: &mut Rng) -> (usize, usize) {
    match rng.below(400) {
        0 => (1024, 1024),
        1..=9 => (rng.between(512, 1024), rng.between(256, 512)),
        10..=40 => (rng.between(3, 16), rng.between(2, 8)),
        _ => (rng.between(32, 320), rng.between(16, 160)),
    }
}

/// A point near the offset: by a part of the size in each axis, or along one axis.
fn near(rng: &mut Rng, at: &Place) -> [f64; 3] {
    let along = rng.below(6);
    let mut p = at.offset;
    for (i, x) in p.iter_mut().enumerate() {
        if along >= 3 || along == i {
            *x += sign(rng) * part(rng, at.size);
        }
    }
    p
}

pub fn a_box(rng: &mut Rng) -> Drawn {
    let at = place(rng);
    let stop = near(rng, &at);
    drawn(Solid::Box(at.offset, stop), resolution(rng), String::new())
}

pub fn sector(rng: &mut Rng) -> Drawn {
    let at = place(rng);
    let (r, z) = (at.offset[0].abs(), at.offset[2]);
    let start = rng.pick(&[0.0, 1.0, -0.5, 100.0, 0.1]);
    let turn = rng.pick(&[TAU, TAU, 1.0, 3.0, 1e-9, 1e-16]);
    let stop = [r + part(rng, at.size), start + turn, z + part(rng, at.size)];
    drawn(Solid::Sector([r, start, z], stop), resolution(rng), String::new())
}

pub fn multi_box(rng: &mut Rng) -> Drawn {
    let at = place(rng);
    let n = rng.between(1, 256);
    let list = (0..n).flat_map(|_| [near(rng, &at), near(rng, &at)]).flatten().collect();
    let note = format!("{n} boxes at {:?}, size {:?}", at.offset, at.size);
    drawn(Solid::MultiBox(list), (3, 2), note)
}

pub fn sphere(rng: &mut Rng) -> Drawn {
    let at = place(rng);
    drawn(Solid::Sphere(at.offset, at.size), resolution(rng), String::new())
}

pub fn spherical_shell(rng: &mut Rng) -> Drawn {
    let at = place(rng);
    let width = part(rng, at.size);
    drawn(Solid::SphericalShell(at.offset, at.size, width), resolution(rng), String::new())
}

pub fn cylinder(rng: &mut Rng) -> Drawn {
    let at = place(rng);
    let (stop, radius) = (near(rng, &at), part(rng, at.size));
    drawn(Solid::Cylinder(at.offset, stop, radius), resolution(rng), String::new())
}

pub fn cylindrical_shell(rng: &mut Rng) -> Drawn {
    let at = place(rng);
    let (stop, radius) = (near(rng, &at), part(rng, at.size));
    let width = part(rng, radius);
    drawn(Solid::CylindricalShell(at.offset, stop, radius, width), resolution(rng), String::new())
}

/// Corners on a circle, or on two in turn, around the offset.
fn round(rng: &mut Rng, at: &Place, n: usize) -> Vec<f64> {
    let inner = if rng.one_in(2) { 1.0 } else { 0.3 + 0.6 * rng.unit() };
    let corner = |i: usize| {
        let r = at.size * if i.is_multiple_of(2) { 1.0 } else { inner };
        let (s, c) = (TAU * i as f64 / n as f64).sin_cos();
        [at.offset[0] + r * c, at.offset[1] + r * s]
    };
    (0..n).flat_map(corner).collect()
}

fn flat(rng: &mut Rng) -> (Place, Vec<f64>, String) {
    let at = place(rng);
    let n = rng.between(48, 96);
    let list = round(rng, &at, n);
    let note = format!("{n} corners around {:?}, size {:?}", at.offset, at.size);
    (at, list, note)
}

pub fn polygon(rng: &mut Rng) -> Drawn {
    let (at, list, note) = flat(rng);
    drawn(Solid::Polygon(rng.below(3) as u8, at.offset[2], list), (3, 2), note)
}

pub fn extruded(rng: &mut Rng) -> Drawn {
    let (at, list, note) = flat(rng);
    let length = sign(rng) * part(rng, at.size);
    drawn(Solid::Extruded(rng.below(3) as u8, at.offset[2], length, list), (3, 2), note)
}

pub fn rotated(rng: &mut Rng) -> Drawn {
    let (_, list, note) = flat(rng);
    let d = rng.below(3) as u8;
    let axis = (d + 1 + rng.below(2) as u8) % 3;
    let turn = rng.pick(&[TAU, TAU, 1.0, 3.0, 1e-9]);
    drawn(Solid::Rotated(d, 0.0, axis, 0.0, turn, list), resolution(rng), format!("{note}, axis {axis}, turn {turn:?}"))
}

/// Points near the offset, or a line of them whose steps are far smaller than the radius, or far larger.
pub fn wire(rng: &mut Rng) -> Drawn {
    let at = place(rng);
    let n = if rng.one_in(8) { rng.between(2, 4) } else { rng.between(5, 256) };
    let radius = at.size * 2f64.powi(rng.between(0, 60) as i32 - 30) * mantissa(rng);
    let list = (0..n).flat_map(|_| near(rng, &at)).collect();
    // Some 60,000 triangles, but rarely.
    let (segments, rings) = resolution(rng);
    let most = (30_000 / n).max(6);
    let (segments, rings) =
        if rng.one_in(60) { (32, 16) } else { (segments.min(most / 2), rings.min(most / segments.min(most / 2))) };
    let note = format!("{n} points at {:?}, size {:?}, radius {radius:?}", at.offset, at.size);
    drawn(Solid::Wire(radius, list), (segments, rings), note)
}
