//! Solids at the edge of the places that a file's solid has, 1,024 vertices and 2,048 triangles, on either side of it.
use crate::case::*;
use crate::generate::outlines;
use crate::rng::Rng;
use csx::tessellate::shown::clean_polygon;

/// A solid with its settings, without operations.
pub fn solid(rng: &mut Rng) -> Case {
    let mut case = Case { what: TESSELLATE, sphere_rings: 4, ..Case::default() };
    let ends = [0.0, 0.0, 0.0, 0.0, 0.0, 1.0];
    match rng.below(7) {
        // Vertices 2n + 2.
        0 => put(&mut case, CYLINDER, rng.between(509, 514), &[&ends[..], &[1.0]].concat()),
        // Vertices 4n, triangles 8n.
        1 => put(&mut case, CYLINDRICAL_SHELL, rng.between(255, 258), &[&ends[..], &[2.0, 1.0]].concat()),
        // Vertices n (rings − 1) + 2, triangles twice n (rings − 1).
        2 => {
            let sizes = [(14, 74), (73, 15), (146, 8), (7, 147), (511, 3), (1022, 2), (93, 12), (33, 32), (1024, 2)];
            let (segments, rings) = rng.pick(&sizes);
            put(&mut case, SPHERE, segments, &[0.0, 0.0, 0.0, 1.0]);
            case.sphere_rings = rings;
        }
        // Vertices 8n.
        3 => {
            put(&mut case, MULTI_BOX, 4, &[]);
            let n = rng.between(126, 130);
            case.list = (0..n).flat_map(|i| [i as f64, 0.0, 0.0, i as f64 + 0.5, 1.0, 2.0]).collect();
        }
        // Vertices 2n, triangles 4n − 4.
        4 => {
            put(&mut case, LIN_POLY, 4, &[0.0, 1.0]);
            let n = rng.between(510, 512);
            case.list = (0..n).flat_map(|i| [i as f64, if i + 1 < n { (i * i) as f64 } else { 1e6 }]).collect();
        }
        5 => shells(rng, &mut case),
        _ => turned(rng, &mut case),
    }
    case
}

fn put(case: &mut Case, shape: u8, segments: usize, numbers: &[f64]) {
    (case.shape, case.segments) = (shape, segments as u32);
    case.numbers[..numbers.len()].copy_from_slice(numbers);
}

/// A spherical shell: two spheres.
fn shells(rng: &mut Rng, case: &mut Case) {
    let segments = rng.between(3, 200);
    put(case, SPHERICAL_SHELL, segments, &[0.0, 0.0, 0.0, 2.0, 1.0]);
    case.sphere_rings = (512 / segments + rng.below(3)).max(2) as u32;
}

/// A full turn of an outline of n corners: mostly 2n triangles for each segment, and fewer vertices where corners come twice.
fn turned(rng: &mut Rng, case: &mut Case) {
    case.list = match rng.below(4) {
        // Two squares with a corner in common.
        0 => vec![1.0, 0.0, 2.0, 1.0, 3.0, 0.0, 4.0, 1.0, 3.0, 2.0, 2.0, 1.0, 1.0, 2.0, 0.0, 1.0],
        // A triangle and a line from its first corner and back: 2,040 triangles of 204 segments, 2,050 of 205.
        1 => vec![1.0, 0.0, 2.0, 0.0, 2.0, 1.0, 1.0, 0.0, 0.0, 2.0],
        _ => outlines::outline(rng),
    };
    case.list.iter_mut().for_each(|x| *x = x.abs() + 1.0);
    let corners = clean_polygon(&pairs(&case.list)).len().max(1);
    let segments = (1024 / corners + rng.below(2)).clamp(3, 1024);
    put(case, ROT_POLY, segments, &[0.0, 0.0, std::f64::consts::TAU]);
    case.norm_dir = rng.below(3) as u8;
    case.rot_axis_dir = (case.norm_dir + 1 + rng.below(2) as u8) % 3;
}
