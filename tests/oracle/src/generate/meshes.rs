//! Runs of mesh calls: two meshes are made, then appended, flipped, transformed, measured and exchanged.
use super::floats::{self, Style};
use super::{boxes, operations, places, solids};
use crate::case::*;
use crate::rng::Rng;

/// A run of calls. The meshes are loaded, or with `tessellated` mostly made by tessellate.
pub fn calls(rng: &mut Rng, tessellated: bool) -> Vec<Case> {
    if rng.one_in(12) {
        return refused(rng);
    }
    let mut out = Vec::new();
    // Now and then the meshes are those that an earlier run left, or none yet.
    if !rng.one_in(20) {
        let first = made(rng, tessellated, (0, 0), &mut out);
        out.push(call(EXCHANGE));
        let times = rng.pick(&[1, 1, 2, 3]);
        made(rng, tessellated, (times * first.0, times * first.1), &mut out);
    }
    for _ in 0..rng.between(2, 10) {
        let next = match rng.below(12) {
            0..=3 => call(APPEND),
            4..=5 => call(FLIP),
            6..=8 => transform(rng),
            9..=10 => call(MEASURE),
            _ => call(EXCHANGE),
        };
        let edited = next.what != MEASURE && next.what != EXCHANGE;
        out.push(next);
        if edited && rng.one_in(2) {
            out.push(call(MEASURE));
        }
    }
    out
}

/// Two meshes, of which one at least has a wrong box, and calls that mostly have a further reason for a refusal, so that the order of the
/// checks shows. A refused call leaves the meshes, so that each call finds what was loaded.
fn refused(rng: &mut Rng) -> Vec<Case> {
    let mut meshes = [sound(rng, (12, 16)), sound(rng, (0, 0))];
    let both = rng.one_in(4);
    let first = rng.below(2);
    for (i, mesh) in meshes.iter_mut().enumerate() {
        boxes::claim(rng, mesh);
        if both || i == first {
            boxes::wrong(rng, mesh);
        }
        if rng.one_in(3) {
            break_mesh(rng, mesh);
        }
    }
    if rng.one_in(2) {
        meshes.reverse();
    }
    let [a, b] = meshes;
    let mut out = vec![b, call(EXCHANGE), a];
    for _ in 0..rng.between(4, 12) {
        out.push(match rng.below(8) {
            0..=1 => call(APPEND),
            2 => call(FLIP),
            3..=5 => {
                let mut case = call(TRANSFORM);
                operations::refused(rng, &mut case);
                case
            }
            6 => call(MEASURE),
            _ => call(EXCHANGE),
        });
    }
    out
}

/// A reason for 8 or for 1.
fn break_mesh(rng: &mut Rng, case: &mut Case) {
    match rng.below(3) {
        0 => case.triangle_count = u32::MAX,
        _ if case.vertex_count == 0 => case.vertex_count = u32::MAX,
        _ => floats::spoil(rng, &mut case.list[..3 * case.vertex_count as usize]),
    }
}

fn call(what: u8) -> Case {
    Case { what, ..Case::default() }
}

fn transform(rng: &mut Rng) -> Case {
    let mut case = call(TRANSFORM);
    operations::operations(rng, &mut case);
    case
}

/// A case that makes a mesh, lent so that another of the size `more` may be appended, exactly or not; returns the mesh's size.
fn made(rng: &mut Rng, tessellated: bool, more: (usize, usize), out: &mut Vec<Case>) -> (usize, usize) {
    if !tessellated || rng.one_in(5) {
        let case = loaded(rng, more);
        let small = |count: u32| if count > 1000 { 0 } else { count as usize };
        let size = (small(case.vertex_count), small(case.triangle_count));
        out.push(case);
        return size;
    }
    let mut case = solids::shaped(rng);
    if rng.one_in(3) {
        operations::operations(rng, &mut case);
    }
    let counts = places::counts(&case);
    places::lend(rng, &mut case, (counts.0 + more.0, counts.1 + more.1));
    out.push(case);
    counts
}

/// A load of A: mostly a sound mesh with its box, else each way of breaking one.
fn loaded(rng: &mut Rng, more: (usize, usize)) -> Case {
    let mut case = sound(rng, more);
    damage(rng, &mut case);
    boxes::claim(rng, &mut case);
    case
}

/// A mesh, sound where the numbers are finite and the slices long enough; it claims no box yet.
fn sound(rng: &mut Rng, more: (usize, usize)) -> Case {
    let mut case = call(LOAD);
    let style = if rng.one_in(2) { Style::Ordinary } else { floats::style(rng) };
    let vertices = rng.between(0, 12);
    case.list = (0..3 * vertices).map(|_| floats::number(rng, style)).collect();
    case.triangles = match rng.below(4) {
        0 if vertices >= 4 => vec![0, 2, 1, 0, 1, 3, 0, 3, 2, 1, 2, 3],
        _ if vertices == 0 => Vec::new(),
        _ => (0..3 * rng.between(0, 16)).map(|_| rng.below(vertices) as u32).collect(),
    };
    (case.vertex_count, case.triangle_count) = (vertices as u32, case.triangles.len() as u32 / 3);
    let all = (vertices + more.0, case.triangle_count as usize + more.1);
    // Mostly room for the mesh itself at least, often for both.
    let least = match rng.below(8) {
        0 => (0, 0),
        1..=4 => (vertices, case.triangle_count as usize),
        _ => all,
    };
    let mut length = |n: usize, least: usize| places::length(rng, n).max(3 * least);
    case.vertex_floats = length(all.0, least.0).min(places::MOST_VERTEX_FLOATS) as u32;
    case.triangle_numbers = length(all.1, least.1).min(places::MOST_TRIANGLE_NUMBERS) as u32;
    case
}

fn damage(rng: &mut Rng, case: &mut Case) {
    match rng.below(24) {
        0 => floats::spoil(rng, &mut case.list),
        1 if !case.triangles.is_empty() => {
            let at = rng.below(case.triangles.len());
            case.triangles[at] = rng.pick(&[case.vertex_count, case.vertex_count + 1, u32::MAX]);
        }
        2 => case.vertex_count = rng.pick(&[case.vertex_count + 1, u32::MAX, u32::MAX / 3, 1 << 31]),
        3 => case.triangle_count = rng.pick(&[case.triangle_count + 1, u32::MAX, u32::MAX / 3 + 1, 1 << 31]),
        // Fewer counted than given: what lies beyond the counts is not read.
        4 => {
            case.triangle_count /= 2;
            case.triangles[3 * case.triangle_count as usize..].fill(u32::MAX);
        }
        5 => {
            case.triangle_count = 0;
            case.vertex_count /= 2;
            case.list[3 * case.vertex_count as usize..].fill_with(|| floats::not_finite(rng));
        }
        _ => (),
    }
}
