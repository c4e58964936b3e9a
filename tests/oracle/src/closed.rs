//! Demand 3 (docs/SCOPE.md, "Words of demand 3") and the box, checked on results: which cases make a closed solid, whether a mesh is closed, and
//! where its vertices end.
use crate::case::*;
use crate::refusals::Lent;
use csx::tessellate::shown::ccw_polygon;
use std::f64::consts::TAU;

/// Every directed edge of the counted triangles occurs as often as its reverse.
pub fn closed(mesh: &Lent) -> bool {
    let mut edges = Vec::with_capacity(mesh.triangles.len());
    for t in mesh.counted_triangles().chunks_exact(3) {
        edges.extend([(t[0], t[1]), (t[1], t[2]), (t[2], t[0])]);
    }
    let mut reverses: Vec<_> = edges.iter().map(|&(u, v)| (v, u)).collect();
    edges.sort_unstable();
    reverses.sort_unstable();
    edges == reverses
}

/// No counted triangle names one vertex twice or a vertex that is not there.
pub fn sound(mesh: &Lent) -> bool {
    let apart = |t: &[u32]| t[0] != t[1] && t[1] != t[2] && t[2] != t[0];
    let there = |t: &[u32]| t.iter().all(|&v| v < mesh.vertex_count);
    mesh.counted_triangles().chunks_exact(3).all(|t| apart(t) && there(t))
}

/// The least x, y, z and the greatest x, y, z of the counted vertices, a zero as +0.0.
pub fn box_of(mesh: &Lent) -> Bounds {
    let of = |axis: usize| mesh.counted_vertices().iter().skip(axis).step_by(3).copied();
    let least = |axis: usize| of(axis).fold(f64::INFINITY, |least, x| if x < least { x } else { least });
    let greatest =
        |axis: usize| of(axis).fold(f64::NEG_INFINITY, |greatest, x| if x > greatest { x } else { greatest });
    std::array::from_fn(|i| if i < 3 { least(i) } else { greatest(i - 3) } + 0.0)
}

/// The case is a closed solid, if it is accepted.
pub fn is_closed_solid(case: &Case) -> bool {
    let n = &case.numbers;
    match case.shape {
        BOX => unequal(&n[..3], &n[3..6]),
        MULTI_BOX => case.list.chunks_exact(6).all(|c| unequal(&c[..3], &c[3..])),
        SPHERE | SPHERICAL_SHELL | CYLINDER | WIRE => true,
        CYLINDRICAL_SHELL => {
            let half = n[7] / 2.0;
            let inner = if n[6] - half > 0.0 { n[6] - half } else { 0.0 };
            inner != n[6] + half
        }
        LIN_POLY => n[0] != n[0] + n[1] && all_caps(&pairs(&case.list)),
        ROT_POLY => {
            let full = (n[2] - n[1]).abs() >= TAU - 1e-12;
            full || turned_corners(case).is_none_or(|corners| all_caps(&corners))
        }
        _ => false,
    }
}

fn unequal(a: &[f64], b: &[f64]) -> bool {
    a.iter().zip(b).all(|(x, y)| x != y)
}

/// The prepared corners have n − 2 cap triangles, before welding.
fn all_caps(corners: &[(f64, f64)]) -> bool {
    let (prepared, triangles) = ccw_polygon(corners);
    triangles.len() + 2 == prepared.len()
}

/// A rotated outline's corners as (radial, axial); none where its directions give no mesh.
fn turned_corners(case: &Case) -> Option<Vec<(f64, f64)>> {
    let (norm, axis) = (case.norm_dir as usize, case.rot_axis_dir as usize);
    if norm > 2 || axis > 2 || norm == axis {
        return None;
    }
    let radial_first = (norm + 1) % 3 == 3 - axis - norm;
    let corners = pairs(&case.list).into_iter();
    Some(corners.map(|(u, v)| if radial_first { (u, v) } else { (v, u) }).collect())
}
