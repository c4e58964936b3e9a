//! `sample SEED > cases`: a small case file with every shape, call and refusal, the edges of the refusals on both sides, angles at
//! quarter points, and boxes that are right or wrong in each way; then files with every field, in every way of being wrong.
//! It is a choice among the runs that `generate` makes: a run is kept where it shows what was not yet shown often enough.
mod files;

use oracle::calls::Meshes;
use oracle::case::*;
use oracle::generate::runs;
use oracle::reference::bounds_of;
use oracle::refusals::{Lent, op_angles, shape_angles};
use std::collections::HashMap;
use std::f64::consts::FRAC_PI_2;
use std::io::{self, BufWriter, Write};

/// Runs looked at, and the most bytes of a run and its results.
const LOOKED_AT: usize = 100_000;
const MOST_BYTES: usize = 6_000;
const MOST_BYTES_OF_A_LONG_LIST: usize = 26_000;

fn main() -> io::Result<()> {
    let seed = std::env::args().nth(1).and_then(|a| a.parse().ok()).unwrap_or(1);
    let mut to = BufWriter::new(io::stdout().lock());
    let mut shown: HashMap<String, usize> = HashMap::new();
    let mut meshes = Meshes::default();
    for run in runs(seed, "calls").take(LOOKED_AT) {
        let mut after = meshes.clone();
        let (mut bytes, mut things) = (Vec::new(), Vec::new());
        for case in &run {
            let (before, start) = (after.clone(), bytes.len());
            after.run(case, &mut bytes)?;
            things.extend(shows(case, &bytes[start..]));
            things.extend(shows_box(case, &before, bytes[start])?);
            case.write(&mut bytes)?;
        }
        let long = things.iter().any(|t| t.contains("list"));
        let small = bytes.len() <= if long { MOST_BYTES_OF_A_LONG_LIST } else { MOST_BYTES };
        if small && things.iter().any(|t| shown.get(t).is_none_or(|&n| n < often(t))) {
            things.into_iter().for_each(|t| *shown.entry(t).or_default() += 1);
            run.iter().try_for_each(|case| case.write(&mut to))?;
            meshes = after;
        }
    }
    files::choose(seed, &meshes, &mut to)?;
    to.flush()
}

/// How often a thing is to be shown: meshes with triangles several times.
fn often(thing: &str) -> usize {
    if thing.ends_with("with triangles") { 6 } else { 1 }
}

/// What a case shows: its call, shape and outcome, and the edges that it stands at with that outcome.
fn shows(case: &Case, result: &[u8]) -> Vec<String> {
    let refusal = result[0];
    let shape = if case.what == TESSELLATE { case.shape } else { 0 };
    let full = match case.what {
        TESSELLATE => result[8..12] != [0; 4],
        CLIP => result[4..8] != [0; 4],
        _ => false,
    };
    let mut out = vec![format!("{} {shape} {refusal}{}", case.what, if full { " with triangles" } else { "" })];
    let mut edge = |holds: bool, name: String| {
        if holds {
            out.push(format!("{} {refusal} {name}", case.what));
        }
    };
    for count in [1024, 1025] {
        edge(case.segments == count, format!("segments {count}"));
        edge(case.sphere_rings == count, format!("rings {count}"));
    }
    edge(case.ops.len() >= 16, format!("operations {}", case.ops.len()));
    edge(case.degrees == 1 && !case.ops.is_empty(), "degrees".into());
    for op in &case.ops {
        edge(refusal == 0, format!("kind {}", op.kind));
    }
    for angle in [1000f64, 1000f64.next_up()] {
        let there = case.given().iter().chain(&case.list).chain(case.ops.iter().flat_map(|op| op.given()));
        edge(there.into_iter().any(|x| x.abs() == angle), format!("angle {angle:?}"));
    }
    let (size, most) = if case.what == CLIP { (2, 512) } else { case.items().unwrap_or((1, usize::MAX - 1)) };
    let used = case.what == CLIP || case.what == TESSELLATE;
    for count in [most, most + 1] {
        edge(used && case.list.len() / size == count, format!("list of {count}, shape {shape}"));
    }
    edge(!case.vertex_floats.is_multiple_of(3), "broken vertex place".into());
    edge(!case.triangle_numbers.is_multiple_of(3), "broken triangle place".into());
    let need = 2 * (case.vertex_floats / 3);
    edge(case.what == TESSELLATE && need > 0 && case.work_numbers + 1 == need, "work one short".into());
    if full && case.what == TESSELLATE {
        out.extend(quarter_points(case));
    }
    out
}

/// What an edit or a measure shows of boxes: how the boxes of its meshes are, and with a wrong one the refusal that it would have with the
/// right one.
fn shows_box(case: &Case, before: &Meshes, refusal: u8) -> io::Result<Vec<String>> {
    if !matches!(case.what, APPEND | FLIP | TRANSFORM | MEASURE) {
        return Ok(Vec::new());
    }
    let idle = if case.what == TRANSFORM && case.ops.is_empty() { ", no operations" } else { "" };
    let (mut righted, mut result) = (before.clone(), Vec::new());
    let mut out = Vec::new();
    for (name, mesh) in [("A", &mut righted.a), ("B", &mut righted.b)] {
        if mesh.broken() {
            continue;
        }
        let not_finite = if mesh.not_finite() { ", vertices not finite" } else { "" };
        let mut kind = kind_of_box(mesh);
        if (mesh.not_finite() || !matches!(refusal, 0 | 8)) && !kind.starts_with("right") {
            kind = "wrong";
        }
        mesh.bounds = bounds_of(mesh.counted_vertices());
        if name == "A" || case.what == APPEND {
            out.push(format!("{} {refusal}{idle} {name} {kind}{not_finite}", case.what));
        }
    }
    righted.run(case, &mut result)?;
    out.push(format!("{} {refusal}{idle} and {} with the right box", case.what, result[0]));
    Ok(out)
}

/// How the box of a mesh is, whose counts are within its slices.
fn kind_of_box(mesh: &Lent) -> &'static str {
    let (found, right) = (&mesh.bounds, bounds_of(mesh.counted_vertices()));
    let bits = |b: &Bounds| b.map(f64::to_bits);
    let unequal: Vec<usize> = (0..6).filter(|&i| found[i] != right[i]).collect();
    let exchanged = |i: usize| found[i] == right[(i + 3) % 6];
    let next = |i: usize| found[i] == right[i].next_up() || found[i] == right[i].next_down();
    match unequal[..] {
        [] if bits(found) == bits(&right) => "right",
        [] => "right, with -0.0",
        _ if mesh.vertex_count == 0 && *found == [0.0; 6] => "zero, without vertices",
        _ if found.iter().any(|x| x.is_nan()) => "NaN",
        _ if *found == EMPTY_BOX => "empty",
        [i] if found[i].is_infinite() => "infinite",
        [i] if next(i) && found[i] > right[i] => "next above",
        [i] if next(i) => "next below",
        _ if unequal.len() > 1 && unequal.iter().all(|&i| exchanged(i)) => "exchanged",
        _ if *found == used(mesh) => "of the triangles' vertices",
        _ if mesh.vertices.len() >= 3 && *found == bounds_of(&mesh.vertices) => "of uncounted vertices too",
        _ => "wrong",
    }
}

/// The box of the vertices that triangles have.
fn used(mesh: &Lent) -> Bounds {
    let corner = |&v: &u32| &mesh.vertices[3 * v as usize..3 * v as usize + 3];
    bounds_of(&mesh.counted_triangles().iter().flat_map(corner).copied().collect::<Vec<f64>>())
}

/// Where a mesh with triangles shows the sine and cosine of quarter points: its rotations, its angles, its segments.
fn quarter_points(case: &Case) -> Vec<String> {
    let angles: Vec<f64> = shape_angles(case).collect();
    let drawn = match case.shape {
        BOX | MULTI_BOX => "box",
        ROT_POLY => "outline",
        _ => "point",
    };
    let rotated = op_angles(case).filter_map(place).map(|place| format!("rotated {place}, degrees {}", case.degrees));
    let mut out: Vec<String> = rotated.collect();
    out.extend(angles.iter().filter_map(|&angle| place(angle)).map(|place| format!("{drawn} {place}")));
    if angles.iter().any(|&angle| angle != 0.0 && is_quarter_point(angle)) {
        out.push(format!("shape {} at quarter points", case.shape));
    }
    let round = matches!(case.shape, SPHERE | SPHERICAL_SHELL | CYLINDER | CYLINDRICAL_SHELL | WIRE);
    if (round || !angles.is_empty()) && matches!(case.segments, 4 | 8) {
        out.push(format!("shape {} of {} segments", case.shape, case.segments));
    }
    out
}

/// Where an angle is a quarter point, zeros told apart by their signs, or next to one.
fn place(angle: f64) -> Option<String> {
    if is_quarter_point(angle) {
        Some(format!("at {angle:?}"))
    } else if is_quarter_point(angle.next_up()) || is_quarter_point(angle.next_down()) {
        Some("next to a quarter point".into())
    } else {
        None
    }
}

fn is_quarter_point(angle: f64) -> bool {
    (-4..=4).any(|m| angle == m as f64 * FRAC_PI_2)
}
