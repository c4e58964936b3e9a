//! Reasons for refusals of a file's solid.
use super::large;
use crate::case::*;
use crate::generate::floats;
use crate::rng::Rng;

/// Gives a solid a reason for 1, 2, 3, 4, 5 or 7. It may have others already.
pub fn give(rng: &mut Rng, case: &mut Case) {
    match rng.below(6) {
        0 => not_finite(rng, case),
        1 => angle(rng, case),
        2 => segments(rng, case),
        3 => too_long(rng, case),
        4 => overflow(rng, case),
        _ => places(rng, case),
    }
}

/// 1: an infinity or a NaN of any pattern, in the shape, its list or an operation.
fn not_finite(rng: &mut Rng, case: &mut Case) {
    let quiet = 0x7FF8_0000_0000_0000;
    let infinity = 0x7FF0_0000_0000_0000;
    let any = infinity | rng.bits() >> 12 | 1;
    let x = f64::from_bits(rng.pick(&[quiet, infinity, infinity | 1, any, u64::MAX >> 1]) | (rng.bits() & 1 << 63));
    let given = NUMBERS[case.shape as usize];
    let listed = case.items().is_some() && !case.list.is_empty();
    match rng.below(3) {
        0 if listed => {
            let at = rng.below(case.list.len());
            case.list[at] = x;
        }
        1 if given > 0 => case.numbers[rng.below(given)] = x,
        _ => {
            if case.ops.is_empty() {
                case.ops.push(Op { kind: rng.between(1, 8) as u8, ..Op::default() });
            }
            let at = rng.below(case.ops.len());
            let n = case.ops[at].given().len();
            case.ops[at].numbers[rng.below(n)] = x;
        }
    }
}

/// 2: an angle of the shape, or of an operation in radians or degrees. One at the edge is accepted.
fn angle(rng: &mut Rng, case: &mut Case) {
    let radians = floats::sign(rng) * rng.pick(&[1000.0, 1000f64.next_up(), 1001.0, 1e300]);
    let edge = 1000f64.to_degrees();
    let degrees = floats::sign(rng) * rng.pick(&[edge, edge.next_up(), edge.next_up().next_up(), 57_296.0, 1e300]);
    let second = rng.pick(&[1, 4]);
    match case.shape {
        _ if rng.one_in(3) => {
            let mut op = Op { kind: rng.between(2, 5) as u8, ..Op::default() };
            op.numbers = [if case.degrees == 1 { degrees } else { radians }; 16];
            if op.kind == 2 {
                op.numbers[..3].copy_from_slice(&[1.0, -1.0, 0.5]);
            }
            case.ops.insert(rng.below(case.ops.len() + 1), op);
            return;
        }
        ROT_POLY => case.numbers[rng.between(1, 2)] = radians,
        SPHERE | SPHERICAL_SHELL => case.numbers[1] = radians,
        BOX | CYLINDER | CYLINDRICAL_SHELL => case.numbers[second] = radians,
        MULTI_BOX | WIRE if !case.list.is_empty() => {
            let item = if case.shape == WIRE { 3 } else { 6 };
            let at = item * rng.below(case.list.len() / item) + if item == 6 { second } else { 1 };
            case.list[at] = radians;
        }
        _ => (),
    }
    // By its own system or the default one; of a multi-box the default one alone counts.
    if rng.one_in(2) || case.shape == MULTI_BOX {
        (case.own, case.default) = (rng.pick(&[0, 0, 2]), 1);
    } else {
        case.own = 2;
    }
}

/// 3: segments or rings, or both. 1,024 are accepted.
fn segments(rng: &mut Rng, case: &mut Case) {
    let n = rng.pick(&[1024, 1025, 1025, 1026, 1280, 2048, 32_768, 65_535]);
    match rng.below(3) {
        0 => case.segments = n,
        1 => case.sphere_rings = n,
        _ => (case.segments, case.sphere_rings) = (n, n),
    }
}

/// 4: a list above its limit or just at it, or more than sixteen operations or just so many.
fn too_long(rng: &mut Rng, case: &mut Case) {
    match case.items() {
        Some((floats, most)) if rng.one_in(2) => {
            let items = if rng.one_in(6) { rng.between(most, 2 * most) } else { most + rng.below(3) };
            let drawn = std::mem::take(&mut case.list);
            let given: Vec<f64> = if drawn.is_empty() { (0..floats).map(|i| i as f64).collect() } else { drawn };
            case.list = given.into_iter().cycle().take(floats * items).collect();
        }
        _ => {
            let n = rng.pick(&[16, 17, 17, 17, 18, 33, 256, 257, 272]);
            let last = case.ops.last().cloned().unwrap_or(Op { kind: 6, numbers: [1.0; 16] });
            case.ops.resize(n, last);
        }
    }
}

/// 5: a point of the soup, or a vertex after the operations.
fn overflow(rng: &mut Rng, case: &mut Case) {
    let large = rng.pick(&[f64::MAX, 1e308, 1.2e308]);
    match case.shape {
        BOX if rng.one_in(2) => {
            let axis = rng.below(3);
            (case.numbers[axis], case.numbers[axis + 3]) = (-large, large);
        }
        SPHERE | CYLINDER | WIRE if rng.one_in(2) => {
            let radius = NUMBERS[case.shape as usize] - 1;
            case.numbers[radius] = large;
            case.numbers[0] = if case.shape == WIRE { large } else { 1e308 };
        }
        _ => {
            let n = rng.between(1, 2);
            case.ops.extend(vec![Op { kind: 6, numbers: [large; 16] }; n]);
        }
    }
}

/// 7: a solid near the edge of its places or far beyond, its operations kept.
fn places(rng: &mut Rng, case: &mut Case) {
    if rng.one_in(2) {
        let solid = large::solid(rng);
        (case.shape, case.segments, case.sphere_rings) = (solid.shape, solid.segments, solid.sphere_rings);
        (case.norm_dir, case.rot_axis_dir) = (solid.norm_dir, solid.rot_axis_dir);
        (case.numbers, case.list) = (solid.numbers, solid.list);
    } else {
        case.segments = rng.between(33, 1024) as u32;
        case.sphere_rings = rng.between(2, 64) as u32;
    }
}
