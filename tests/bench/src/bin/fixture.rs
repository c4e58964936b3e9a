//! Times the planner's call (crates/sizturga) on whole files. `fixture [REPETITIONS [ROW]]`: a line for each row whose name holds the text ROW: its name;
//! ns a triangle of the call, of the Rust doing the same work, and of our own `tessellate` calls of the solids by themselves; the Rust's over the
//! call's; the call's over our own calls'. Medians; the three take turns. Status 1 where the last figure is above its bar.
use csx_plain::tessellate::TriMesh;
use planner::file::*;
use planner::{LONGEST, counts, output_bytes, output_most};
use sides::clock::{median, timed};
use sides::ours::{self, Lent, Solid};
use sides::rust;
use std::f64::consts::TAU;
use std::hint::black_box;
use std::process::ExitCode;

/// The call takes at most so many times as long as the `tessellate` calls of its solids.
const BAR: f64 = 1.3;
/// A sample lasts at least this long.
const SAMPLE_NS: f64 = 2e7;
/// What a file without the field 01 has.
const SEGMENTS: usize = 32;
const RINGS: usize = 16;

fn main() -> ExitCode {
    let mut args = std::env::args().skip(1);
    let repetitions: usize = args.next().map_or(9, |a| a.parse().expect("a number of repetitions"));
    let wanted = args.next().unwrap_or_default();
    let rows = [("fixture of 1,000 boxes", boxes()), ("fixture of 100 mixed solids", mixed())];
    let mut missed = false;
    println!(
        "row\tours, ns a triangle\tRust\tour tessellate calls\tRust / ours\tours / our tessellate calls, bar {BAR}"
    );
    for (name, solids) in rows.into_iter().filter(|(name, _)| name.contains(&wanted)) {
        let [call, rust, own] = times(name, &solids, repetitions.max(1));
        println!("{name}\t{call:.2}\t{rust:.2}\t{own:.2}\t{:.2}\t{:.2}", rust / call, call / own);
        missed |= call / own > BAR;
    }
    if missed {
        println!("MISSED: the call takes more than {BAR} times as long as its tessellate calls");
    }
    ExitCode::from(missed as u8)
}

/// Medians of the three sides, ns a triangle.
fn times(name: &str, solids: &[Solid], repetitions: usize) -> [f64; 3] {
    let file = solids.iter().fold(File::new(), field).0;
    assert!(file.len() <= LONGEST, "{name}: {} bytes", file.len());
    let mut output = agreed(name, solids, &file);
    let triangles = counts(&output).1 as f64;
    let mut other = output.clone();
    let drawings: Vec<_> = solids.iter().map(|s| (rust::primitive(s), rust::system(s))).collect();
    let options = rust::options(SEGMENTS, RINGS);
    let mut lent = lent();
    let mut sides: [Box<dyn FnMut()>; 3] = [
        Box::new(|| _ = black_box(planner::fixture(black_box(&file), &mut output))),
        Box::new(|| {
            let mut all = TriMesh::new();
            drawings.iter().for_each(|(p, system)| all.append(&rust::tessellate(black_box(p), *system, &options)));
            put(&all, black_box(&mut other));
        }),
        Box::new(|| {
            for solid in solids {
                black_box(ours::tessellate(black_box(solid), SEGMENTS, RINGS, &mut lent));
            }
        }),
    ];
    let counts = sides.each_mut().map(|side| calls(side));
    let mut samples = [Vec::new(), Vec::new(), Vec::new()];
    for _ in 0..repetitions {
        for ((side, n), to) in sides.iter_mut().zip(counts).zip(&mut samples) {
            to.push(sample(side, n));
        }
    }
    samples.map(|all| median(all) / triangles)
}

/// How many calls make a sample; also warms up.
fn calls(side: &mut Box<dyn FnMut() + '_>) -> usize {
    let mut n = 1;
    while sample(side, n) * (n as f64) < SAMPLE_NS {
        n *= 2;
    }
    n
}

/// Nanoseconds a call.
fn sample(side: &mut Box<dyn FnMut() + '_>, n: usize) -> f64 {
    timed(|| (0..n).for_each(|_| side())) / n as f64
}

/// The slices that the planner's call lends for each solid.
fn lent() -> Lent {
    Lent { vertices: vec![0.0; 3072], triangles: vec![0; 6144], work: vec![0; 2048], ..Lent::new(0, 0) }
}

/// The output of the call, with exactly its room. Stops where it is not what our own calls give, bit by bit, or where the Rust's counts or triangles differ.
fn agreed(name: &str, solids: &[Solid], file: &[u8]) -> Vec<u8> {
    let mut output = vec![0; output_most(file.len())];
    assert_eq!(planner::fixture(file, &mut output), 0, "{name}: refused");
    let (vertices, triangles) = counts(&output);
    output.truncate(output_bytes(vertices, triangles));
    let (mut own, mut all, mut lent) = (TriMesh::new(), TriMesh::new(), lent());
    for solid in solids {
        assert_eq!(ours::tessellate(solid, SEGMENTS, RINGS, &mut lent), 0, "{name}: refused");
        let mut one = TriMesh::new();
        one.vertices.extend(rust::points(&lent.vertices[..3 * lent.vertex_count]).map(csx_plain::Vec3));
        one.triangles.extend(lent.triangles[..3 * lent.triangle_count].chunks_exact(3).map(|t| [t[0], t[1], t[2]]));
        own.append(&one);
        all.append(&rust::tessellate(&rust::primitive(solid), rust::system(solid), &rust::options(SEGMENTS, RINGS)));
    }
    let mut expected = vec![0; output.len()];
    put(&own, &mut expected);
    assert!(output == expected, "{name}: the output is not that of our own calls");
    assert_eq!(own.vertices.len(), all.vertices.len(), "{name}: the counts differ");
    assert_eq!(own.triangles, all.triangles, "{name}: the triangles differ");
    output
}

/// The planner's bytes of a mesh.
fn put(mesh: &TriMesh, output: &mut [u8]) {
    let (v, t) = (mesh.vertices.len(), mesh.triangles.len());
    output[..4].copy_from_slice(&(v as u32).to_le_bytes());
    output[4..8].copy_from_slice(&(t as u32).to_le_bytes());
    let (floats, numbers) = output[8..].split_at_mut(24 * v);
    let coordinates = mesh.vertices.iter().flat_map(|p| p.0);
    floats.chunks_exact_mut(8).zip(coordinates).for_each(|(to, x)| to.copy_from_slice(&x.to_le_bytes()));
    let corners = mesh.triangles.iter().flatten();
    numbers.chunks_exact_mut(4).zip(corners).for_each(|(to, i)| to.copy_from_slice(&i.to_le_bytes()));
}

/// A solid's field behind others.
fn field(file: File, solid: &Solid) -> File {
    match solid {
        Solid::Box(p, q) => file.solid(BOX, &[*p, *q].concat()),
        Solid::Sector(p, q) => file.byte(OWN_SYSTEM, 1).solid(BOX, &[*p, *q].concat()),
        Solid::MultiBox(list) => file.solid(MULTI_BOX, list),
        Solid::Sphere(p, r) => file.solid(SPHERE, &[&p[..], &[*r]].concat()),
        Solid::SphericalShell(p, r, w) => file.solid(SPHERICAL_SHELL, &[&p[..], &[*r, *w]].concat()),
        Solid::Cylinder(p, q, r) => file.solid(CYLINDER, &[&p[..], q, &[*r]].concat()),
        Solid::CylindricalShell(p, q, r, w) => file.solid(CYLINDRICAL_SHELL, &[&p[..], q, &[*r, *w]].concat()),
        Solid::Polygon(d, e, list) => file.directed(POLYGON, &[*d], &[&[*e], &list[..]].concat()),
        Solid::Extruded(d, e, l, list) => file.directed(EXTRUDED, &[*d], &[&[*e, *l], &list[..]].concat()),
        Solid::Rotated(d, e, a, p, q, list) => file.directed(ROTATED, &[*d, *a], &[&[*e, *p, *q], &list[..]].concat()),
        Solid::Wire(r, list) => file.solid(WIRE, &[&[*r], &list[..]].concat()),
    }
}

/// 51,000 bytes.
fn boxes() -> Vec<Solid> {
    (0..1000).map(|i| i as f64).map(|i| Solid::Box([i, 0.5, -i], [i + 1.0, 2.5, 3.0])).collect()
}

/// Ten of each kind, by turns.
fn mixed() -> Vec<Solid> {
    (0..100).map(kind).collect()
}

fn kind(i: usize) -> Solid {
    let x = i as f64;
    let (at, end) = ([x, 1.0, 2.0], [x + 1.0, 3.0, 5.0]);
    match i % 10 {
        0 => Solid::Box(at, end),
        1 => Solid::MultiBox((0..4).flat_map(|k| [at, end].concat().into_iter().map(move |c| c + k as f64)).collect()),
        2 => Solid::Sphere(at, 1.5),
        3 => Solid::SphericalShell(at, 1.5, 0.5),
        4 => Solid::Cylinder(at, end, 1.5),
        5 => Solid::CylindricalShell(at, end, 1.5, 0.5),
        6 => Solid::Polygon(2, 1.0, outline(x)),
        7 => Solid::Extruded(1, 1.0, 2.0, outline(x)),
        8 => Solid::Rotated(1, 0.0, 2, 0.0, TAU, outline(x)),
        _ => Solid::Wire(0.25, [at, end, [x, 6.0, 5.0]].concat()),
    }
}

/// A star of 16 corners beside the axes.
fn outline(x: f64) -> Vec<f64> {
    let corner = |i: usize| {
        let (sine, cosine) = (TAU * i as f64 / 16.0).sin_cos();
        let r = 2.0 - (i % 2) as f64;
        [x + 3.0 + r * cosine, 3.0 + r * sine]
    };
    (0..16).flat_map(corner).collect()
}
