//! How many triangles the soup of a solid has, before welding drops the flat ones: `tessellate` of the Rust does not tell, so its loops are
//! counted here. The time of a call is divided by it, since the flat ones take time too. A corner that the clipper removes without a triangle
//! takes as much of its time as one with, so it counts as one.
use crate::drawings::Input;
use csx_plain::tessellate::shown::{arc_segments, ccw_polygon, clean_polygon};
use sides::ours::Solid;
use sides::rust::{corners, options, points};
use std::f64::consts::TAU;

pub fn triangles(input: &Input) -> usize {
    match input {
        Input::Soup(list) => list.len() / 9,
        Input::Solid { solid, segments, rings } => solid_triangles(solid, *segments, *rings),
    }
}

/// Whether a polygon or an extruded outline has at most so many corners, equal neighbours counted once.
pub fn has_few_corners(input: &Input, most: usize) -> bool {
    match input {
        Input::Solid { solid: Solid::Polygon(_, _, list) | Solid::Extruded(_, _, _, list), .. } => {
            clean_polygon(&corners(list)).len() <= most
        }
        _ => false,
    }
}

fn solid_triangles(solid: &Solid, segments: usize, rings: usize) -> usize {
    let around = segments.max(3);
    match solid {
        Solid::Box(p, q) => faces(*p, *q, 1, false),
        Solid::Sector(p, q) => sector(*p, *q, segments),
        Solid::MultiBox(list) => {
            let ends: Vec<_> = points(list).collect();
            ends.chunks_exact(2).map(|b| faces(b[0], b[1], 1, false)).sum()
        }
        Solid::Sphere(_, r) => sphere(*r, around, rings),
        Solid::SphericalShell(_, r, w) => {
            let w = w / 2.0;
            sphere(r + w, around, rings) + if w > 0.0 { sphere(r - w, around, rings) } else { 0 }
        }
        Solid::Cylinder(p, q, r) => tube(*p, *q, 0.0, *r, around),
        Solid::CylindricalShell(p, q, r, w) => tube(*p, *q, r - w / 2.0, r + w / 2.0, around),
        Solid::Polygon(_, _, list) => Clipped::of(&corners(list)).triangles(1, 0),
        Solid::Extruded(_, e, l, list) => {
            let both = e + l != *e;
            Clipped::of(&corners(list)).triangles(1 + both as usize, both as usize)
        }
        Solid::Rotated(d, _, axis, start, stop, list) => rotated(*d, *axis, stop - start, &corners(list), segments),
        Solid::Wire(r, list) => {
            let all: Vec<_> = points(list).collect();
            let tubes: usize = all.windows(2).map(|s| tube(s[0], s[1], 0.0, *r, around)).sum();
            tubes + all.len().saturating_sub(2) * sphere(*r, around, rings)
        }
    }
}

/// `param_box` with n steps along the second axis; a face of an axis without extent counts once.
fn faces(p: [f64; 3], q: [f64; 3], n: usize, periodic: bool) -> usize {
    let sides = |k: usize| if p[k] == q[k] { 1 } else { 2 };
    2 * n * (sides(0) + sides(2)) + if periodic { 0 } else { 2 * sides(1) }
}

fn sector(p: [f64; 3], q: [f64; 3], segments: usize) -> usize {
    let (lo, hi) = (p[1].min(q[1]), p[1].max(q[1]));
    let full = hi - lo >= TAU - 1e-12;
    let hi = if full { lo + TAU } else { hi };
    faces(p, q, arc_segments(&options(segments, 2), hi - lo), full)
}

fn sphere(r: f64, around: usize, rings: usize) -> usize {
    if r <= 0.0 { 0 } else { 2 * around * rings.max(2) }
}

fn tube(p: [f64; 3], q: [f64; 3], r0: f64, r1: f64, around: usize) -> usize {
    let length = (0..3).map(|i| (q[i] - p[i]).powi(2)).sum::<f64>().sqrt();
    if length == 0.0 || r1 <= 0.0 { 0 } else { faces([r0.max(0.0), 0.0, 0.0], [r1, TAU, length], around, true) }
}

fn rotated(norm_dir: u8, axis: u8, span: f64, list: &[(f64, f64)], segments: usize) -> usize {
    // The first of the plane's two axes is the radial one, or the second is.
    let radial_first = (norm_dir + 1) % 3 == 3 - axis - norm_dir;
    let list: Vec<_> = list.iter().map(|&(a, b)| if radial_first { (a, b) } else { (b, a) }).collect();
    let full = span.abs() >= TAU - 1e-12;
    let n = arc_segments(&options(segments, 2), if full { TAU } else { span });
    // The Rust clips the outline of a full turn too, and does not use it; ours does not clip it.
    if full { Clipped::of(&list).sides(n) } else { Clipped::of(&list).triangles(2, n) }
}

/// An outline after clipping.
struct Clipped {
    corners: usize,
    triangles: usize,
}

impl Clipped {
    fn of(list: &[(f64, f64)]) -> Clipped {
        let (p, caps) = ccw_polygon(list);
        Clipped { corners: p.len(), triangles: caps.len() }
    }

    fn sides(&self, steps: usize) -> usize {
        if self.corners < 3 { 0 } else { 2 * self.corners * steps }
    }

    /// So many caps, the sides in so many steps, and the corners that were removed without a triangle.
    fn triangles(&self, caps: usize, steps: usize) -> usize {
        caps * self.triangles + self.sides(steps) + self.corners.saturating_sub(2 + self.triangles)
    }
}
