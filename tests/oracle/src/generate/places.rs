//! Lengths of lent slices: exactly full, one short, with a broken last place, roomy, none.
use crate::case::{Case, pairs};
use crate::reference;
use crate::refusals;
use crate::rng::Rng;
use csx::tessellate::triangulate_polygon;

pub const MOST_VERTEX_FLOATS: usize = 196_608;
pub const MOST_TRIANGLE_NUMBERS: usize = 393_216;
const MOST_WORK_NUMBERS: usize = 131_072;

/// A length for n items of three.
pub fn length(rng: &mut Rng, n: usize) -> usize {
    match rng.below(10) {
        0..=3 => 3 * n,
        4 => 3 * n + rng.between(1, 2),
        5 => (3 * n).saturating_sub(1),
        6 => (3 * n).saturating_sub(rng.between(1, 3)),
        7..=8 => 3 * n + rng.below(12),
        _ => rng.below(3 * n + 3),
    }
}

/// The vertices and triangles of a case's mesh, as far as it is made.
pub fn counts(case: &Case) -> (usize, usize) {
    let lent = Case { vertex_floats: 0, ..case.clone() };
    if refusals::before_tessellation(&lent) != 0 {
        return (8, 12);
    }
    let mesh = reference::untransformed(&lent);
    (mesh.vertices.len(), mesh.triangles.len())
}

/// Lends slices to a case, for a mesh of these counts.
pub fn lend(rng: &mut Rng, case: &mut Case, (vertices, triangles): (usize, usize)) {
    // Half of the cases have room for all, so that most meshes are seen.
    let short = rng.one_in(2);
    let mut of = |n: usize| if short { length(rng, n) } else { 3 * n + rng.below(4) };
    let (floats, numbers) = (of(vertices), of(triangles));
    case.vertex_floats = floats.min(MOST_VERTEX_FLOATS) as u32;
    case.triangle_numbers = numbers.min(MOST_TRIANGLE_NUMBERS) as u32;
    let need = 2 * (case.vertex_floats as usize / 3);
    let work = match rng.below(20) {
        0 => need.saturating_sub(1),
        1 => rng.below(need + 1),
        2..=4 => need + rng.below(5),
        _ => need,
    };
    case.work_numbers = work.min(MOST_WORK_NUMBERS) as u32;
}

pub fn for_clipping(rng: &mut Rng, case: &Case) -> u32 {
    let n = match refusals::before_clipping(case) {
        0 => triangulate_polygon(&pairs(&case.list)).len(),
        _ => 4,
    };
    length(rng, n) as u32
}
