//! The box that a load claims: mostly the right one, else each way of being wrong.
use super::floats::{self, Style};
use super::places;
use crate::calls::loaded;
use crate::case::*;
use crate::reference::bounds_of;
use crate::rng::Rng;

/// Mostly right, now and then with −0.0 for a zero, which is right too, and now and then wrong.
pub fn claim(rng: &mut Rng, case: &mut Case) {
    case.claim(right(case));
    match rng.below(12) {
        0 => wrong(rng, case),
        1 => negative_zeros(rng, case),
        _ => (),
    }
}

/// The box of the counted vertices as they are loaded; of the list where the count is beyond the slice. A coordinate that is NaN is left out.
fn right(case: &Case) -> Bounds {
    let mesh = loaded(case);
    if mesh.vertex_count as usize > mesh.vertex_places() {
        return bounds_of(&case.list);
    }
    bounds_of(mesh.counted_vertices())
}

/// Makes the least or the greatest coordinates of some axes zeros of either sign, and claims −0.0 for some of the zero bounds.
pub fn negative_zeros(rng: &mut Rng, case: &mut Case) {
    for axis in 0..3 {
        let sign = floats::sign(rng);
        if case.list.len() >= 3 && !rng.one_in(3) {
            let axis_floats = case.list.iter_mut().skip(axis).step_by(3);
            axis_floats.filter(|x| !x.is_nan()).for_each(|x| *x = x.copysign(sign));
            case.list[axis] = rng.pick(&[0.0, -0.0]);
        }
    }
    let mut bounds = right(case);
    for bound in &mut bounds {
        if *bound == 0.0 && !rng.one_in(4) {
            *bound = -0.0;
        }
    }
    case.claim(bounds);
}

/// Claims a wrong box. Some ways alter the mesh, so that the box that they claim is not its box.
pub fn wrong(rng: &mut Rng, case: &mut Case) {
    let mut bounds = right(case);
    let at = rng.below(6);
    match rng.below(14) {
        0..=2 => bounds[at] = next(rng, bounds[at]),
        3 => bounds[at] = f64::from_bits(0x7FF8_0000_0000_0000),
        4 => bounds[at] = rng.pick(&[f64::INFINITY, f64::NEG_INFINITY]),
        5..=6 => bounds = of_uncounted_too(rng, case),
        7 => {
            // A mesh without vertices: its box is not at the origin.
            (case.vertex_count, case.triangle_count) = (0, 0);
            bounds = [0.0; 6];
            bounds[at] = rng.pick(&[0.0, -0.0]);
        }
        8 => (0..3).for_each(|axis| bounds.swap(axis, axis + 3)),
        9 => bounds.swap(at % 3, at % 3 + 3),
        10..=11 => bounds = of_used(rng, case),
        12 => bounds = EMPTY_BOX,
        // All vertices lie in it, but it is too large.
        _ => bounds[at] += if at < 3 { -1.0 } else { 1.0 } * (1.0 + bounds[at].abs()),
    }
    bounds.iter_mut().filter(|x| x.is_nan()).for_each(|x| *x = f64::from_bits(0x7FF8_0000_0000_0000));
    if rng.one_in(4) {
        bounds.iter_mut().filter(|x| **x == 0.0).for_each(|x| *x = -*x);
    }
    case.claim(bounds);
}

/// The next float above or below, the other one where there is none.
fn next(rng: &mut Rng, x: f64) -> f64 {
    let (up, down) = (x.next_up(), x.next_down());
    if rng.one_in(2) && up != x || down == x { up } else { down }
}

/// A vertex outside of the box.
fn beyond(rng: &mut Rng, case: &Case) -> [f64; 3] {
    let bounds = right(case);
    std::array::from_fn(|axis| {
        let x = if rng.one_in(2) { bounds[axis] - 1.0 } else { bounds[axis + 3] + 1.0 };
        if x.is_finite() { x } else { floats::number(rng, Style::Ordinary) }
    })
}

/// The box of one vertex more, which stands behind the counted ones.
fn of_uncounted_too(rng: &mut Rng, case: &mut Case) -> Bounds {
    add_vertex(rng, case);
    bounds_of(&case.list)
}

/// The box without a vertex that is counted and that no triangle has: the last one.
fn of_used(rng: &mut Rng, case: &mut Case) -> Bounds {
    let bounds = right(case);
    if add_vertex(rng, case) {
        case.vertex_count += 1;
    }
    bounds
}

/// Puts a vertex behind the counted ones, if the list ends with them; tells whether it did.
fn add_vertex(rng: &mut Rng, case: &mut Case) -> bool {
    let ends = case.list.len() == 3 * case.vertex_count as usize;
    if ends {
        let vertex = beyond(rng, case);
        case.list.extend(vertex);
        case.vertex_floats = case.vertex_floats.max(case.list.len() as u32).min(places::MOST_VERTEX_FLOATS as u32);
    }
    ends
}
