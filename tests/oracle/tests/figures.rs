//! The figures of docs/SCOPE.md, "Figures", checked on the Rust. (P) marks those that are proved.
use csx::Vec3;
use csx::added::triangulate_counted;
use csx::sine::{formula, sin_cos};
use csx::tessellate::shown::{arc_segments, clean_polygon};
use csx::tessellate::{TessellationOptions, TriMesh};
use oracle::calls::Meshes;
use oracle::case::*;
use oracle::closed::closed;
use oracle::reference::untransformed;
use oracle::refusals::Lent;
use std::f64::consts::{FRAC_PI_2, PI, TAU};

/// A shape of these numbers, with slices lent for any mesh of these tests.
fn solid(shape: u8, numbers: &[f64], segments: u32, sphere_rings: u32) -> Case {
    let mut case = Case {
        what: TESSELLATE,
        shape,
        segments,
        sphere_rings,
        vertex_floats: 30_000,
        triangle_numbers: 30_000,
        work_numbers: 20_000,
        ..Case::default()
    };
    case.numbers[..numbers.len()].copy_from_slice(numbers);
    case
}

/// The refusal and the mesh A.
fn run(case: &Case) -> (u32, Lent) {
    let mut meshes = Meshes::default();
    let mut result = Vec::new();
    meshes.run(case, &mut result).unwrap();
    (u32::from_le_bytes(result[..4].try_into().unwrap()), meshes.a)
}

fn counts(case: &Case) -> (u32, u32) {
    let (refusal, mesh) = run(case);
    assert_eq!(refusal, 0);
    (mesh.vertex_count, mesh.triangle_count)
}

fn is_closed(case: &Case) -> bool {
    closed(&run(case).1)
}

fn mesh(case: &Case) -> TriMesh {
    untransformed(case)
}

const BOX_123: [f64; 6] = [0.0, 0.0, 0.0, 1.0, 2.0, 3.0];

/// (P)
#[test]
fn the_box() {
    let case = solid(BOX, &BOX_123, 32, 16);
    assert_eq!(counts(&case), (8, 12));
    let m = mesh(&case);
    let first: Vec<[f64; 3]> = m.vertices[..4].iter().map(|v| v.0).collect();
    assert_eq!(first, [[0.0, 0.0, 0.0], [0.0, 0.0, 3.0], [0.0, 2.0, 3.0], [0.0, 2.0, 0.0]]);
    assert_eq!(m.triangles[..2], [[0, 1, 2], [0, 2, 3]]);
    assert_eq!((m.area(), m.signed_volume()), (22.0, 6.0));
    assert!(is_closed(&case));
}

/// (P)
#[test]
fn the_flat_box() {
    let case = solid(BOX, &[0.0, 0.0, 0.0, 1.0, 2.0, 0.0], 32, 16);
    assert_eq!(counts(&case), (4, 2));
    assert_eq!(mesh(&case).area(), 2.0);
    assert!(!is_closed(&case));
}

/// (P)
#[test]
fn outlines() {
    assert_eq!(clean_polygon(&[(0.0, 0.0), (0.0, 0.0), (1.0, 0.0), (1.0, 1.0), (0.0, 0.0)]).len(), 3);
    let square = [(0.0, 0.0), (1.0, 0.0), (1.0, 1.0), (0.0, 1.0)];
    assert_eq!(triangulate_counted(&square), (vec![[3, 0, 1], [1, 2, 3]], 1));
    let line = [(0.0, 0.0), (1.0, 0.0), (2.0, 0.0), (3.0, 0.0)];
    assert_eq!(triangulate_counted(&line), (vec![], 1));
    assert_eq!(triangulate_counted(&square[..2]), (vec![], 0));
}

/// (P)
#[test]
fn segments_of_an_arc() {
    let options = TessellationOptions::default().with_segments(32);
    let of = |span: f64| arc_segments(&options, span);
    assert_eq!([of(0.0), of(PI), of(-PI), of(TAU)], [1, 16, 16, 32]);
}

/// (P)
#[test]
fn roots() {
    let tiniest = f64::from_bits(1);
    assert_eq!(4f64.sqrt(), 2.0);
    assert_eq!((-0.0f64).sqrt().to_bits(), (-0.0f64).to_bits());
    assert_eq!(tiniest.sqrt(), 2f64.powi(-537));
}

/// The sine and cosine of the nine quarter points; all else keeps the formula's, a quarter beyond a turn too.
#[test]
fn quarter_points() {
    let three = 3.0 * FRAC_PI_2;
    let zeros = [-TAU, -0.0, 0.0, TAU].map(|x| (x, 0.0, 1.0));
    let ones = [-three, FRAC_PI_2].map(|x| (x, 1.0, 0.0));
    let twos = [-PI, PI].map(|x| (x, 0.0, -1.0));
    let threes = [-FRAC_PI_2, three].map(|x| (x, -1.0, 0.0));
    for (x, sine, cosine) in [&zeros[..], &ones, &twos, &threes].concat() {
        assert_eq!(bits(sin_cos(x)), bits((sine, cosine)), "{x:?}");
        for near in [x.next_down(), x.next_up()] {
            assert_eq!(bits(sin_cos(near)), bits(formula(near)), "{near:?}");
        }
    }
    for x in [-5.0 * FRAC_PI_2, 5.0 * FRAC_PI_2, 1.0, 1000.0] {
        assert_eq!(bits(sin_cos(x)), bits(formula(x)), "{x:?}");
    }
}

fn bits((sine, cosine): (f64, f64)) -> (u64, u64) {
    (sine.to_bits(), cosine.to_bits())
}

/// A round clamp lies on the axes, to the last bit.
#[test]
fn quarter_points_of_a_cylinder() {
    for segments in [4, 8, 12, 32] {
        let vertices = mesh(&solid(CYLINDER, &[0.0, 0.0, 0.0, 0.0, 0.0, 1.0, 1.0], segments, 16)).vertices;
        for (x, y) in [(1.0, 0.0), (0.0, 1.0), (-1.0, 0.0), (0.0, -1.0)] {
            for z in [0.0, 1.0] {
                let there = |v: &Vec3| v.0.map(f64::to_bits) == [x, y, z].map(f64::to_bits);
                assert!(vertices.iter().any(there), "{segments} segments: no vertex ({x}, {y}, {z})");
            }
        }
    }
}

/// The first is (P).
#[test]
fn spheres() {
    assert_eq!(counts(&solid(SPHERE, &[0.0, 0.0, 0.0, 0.0], 32, 16)), (0, 0));
    assert_eq!(counts(&solid(SPHERE, &[0.0, 0.0, 0.0, 1.0], 3, 2)), (5, 6));
    assert_eq!(counts(&solid(SPHERE, &[0.0, 0.0, 0.0, 1.0], 32, 16)), (482, 960));
    assert_eq!(counts(&solid(SPHERE, &[1.0, 1.0, 1.0, f64::from_bits(1)], 32, 16)), (1, 0));
}

#[test]
fn cylinders() {
    let ends = [0.0, 0.0, 0.0, 0.0, 0.0, 1.0];
    let shell = |width: f64| solid(CYLINDRICAL_SHELL, &[&ends[..], &[1.0, width]].concat(), 3, 16);
    assert_eq!(counts(&solid(CYLINDER, &[&ends[..], &[1.0]].concat(), 3, 16)), (8, 12));
    assert!(!is_closed(&shell(0.0)) && counts(&shell(0.0)).1 > 0);
    assert!(is_closed(&shell(3.0)));
    let solid_of = solid(CYLINDER, &[&ends[..], &[2.5]].concat(), 3, 16);
    assert_eq!(mesh(&shell(3.0)), mesh(&solid_of));
}

#[test]
fn refusals() {
    let sphere = |segments, rings| run(&solid(SPHERE, &[0.0, 0.0, 0.0, 1.0], segments, rings)).0;
    assert_eq!([sphere(1024, 3), sphere(1025, 3), sphere(3, 1024), sphere(3, 1025)], [0, 3, 0, 3]);
    let turned = |angle: f64| {
        let mut case = solid(SPHERE, &[1.0, angle, 0.0, 1.0], 8, 4);
        case.own = 2;
        run(&case).0
    };
    assert_eq!(
        [turned(1000.0), turned(1000f64.next_up()), turned(-1000.0), turned((-1000f64).next_down())],
        [0, 2, 0, 2]
    );
    assert_eq!(run(&solid(BOX, &[-1e308, 0.0, 0.0, 1e308, 1.0, 1.0], 32, 16)).0, 5);
    let lent = |floats: u32, numbers: u32| {
        let (vertex_floats, triangle_numbers) = (floats, numbers);
        run(&Case { vertex_floats, triangle_numbers, ..solid(BOX, &BOX_123, 32, 16) }).0
    };
    assert_eq!([lent(24, 36), lent(21, 36), lent(23, 36), lent(24, 35)], [0, 7, 7, 7]);
}
