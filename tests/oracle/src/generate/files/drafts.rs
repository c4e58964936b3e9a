//! Files as lists of fields: solids with their settings in any allowed order, and fields that no solid uses.
use super::fields::{self, Field};
use super::{cost, large};
use crate::calls::tessellate;
use crate::case::*;
use crate::fixture::*;
use crate::generate::{floats, operations, solids};
use crate::rng::Rng;
use std::collections::VecDeque;

/// Solids that are accepted, mostly small ones. A solid often has the settings of the one before.
pub fn accepted_solids(rng: &mut Rng, n: usize) -> Vec<Case> {
    let mut out: Vec<Case> = Vec::new();
    for _ in 0..n {
        let before = out.last().cloned();
        out.push(accepted(rng, before));
    }
    out
}

fn accepted(rng: &mut Rng, before: Option<Case>) -> Case {
    for _ in 0..40 {
        let case = solid(rng, before.as_ref());
        let most = if rng.one_in(10) { 10_000 } else { 500 };
        if cost::triangles(&case) <= most
            && let Ok(mesh) = tessellate(&case)
            && (!mesh.triangles.is_empty() || rng.one_in(3))
        {
            return case;
        }
    }
    Case { numbers: [0.0, 0.0, 0.0, 1.0, 2.0, 3.0, 0.0, 0.0, 0.0, 0.0], ..first_settings() }
}

/// A solid of any kind, with its settings and operations, refused or not.
fn solid(rng: &mut Rng, before: Option<&Case>) -> Case {
    let mut case = if rng.one_in(60) { large::solid(rng) } else { solids::shaped(rng) };
    operations::operations(rng, &mut case);
    let first = first_settings();
    (case.vertex_floats, case.triangle_numbers) = (first.vertex_floats, first.triangle_numbers);
    case.work_numbers = first.work_numbers;
    (case.segments, case.sphere_rings) = (case.segments.min(65_535), case.sphere_rings.min(65_535));
    let held = before.unwrap_or(&first);
    if rng.one_in(if before.is_some() { 2 } else { 4 }) {
        (case.segments, case.sphere_rings) = (held.segments, held.sphere_rings);
    }
    if rng.one_in(2) {
        case.default = held.default;
    }
    case
}

/// The fields of solids: before each those that set what is not set yet, in any order.
pub fn written(rng: &mut Rng, solids: &[Case]) -> Vec<Field> {
    let mut out = Vec::new();
    let mut held = first_settings();
    for case in solids {
        let queues =
            [options(rng, case, &held), system(rng, case, &held), own(rng, case), degrees(rng, case), ops(case)];
        out.extend(mixed(rng, queues));
        out.push(fields::solid(case));
        held = case.clone();
    }
    out
}

/// Segments and rings, where they are others than those held; now and then all the same, or replaced.
fn options(rng: &mut Rng, case: &Case, held: &Case) -> VecDeque<Field> {
    let mut out = VecDeque::new();
    if (case.segments, case.sphere_rings) == (held.segments, held.sphere_rings) && !rng.one_in(8) {
        return out;
    }
    if rng.one_in(10) {
        out.push_back(any_options(rng));
    }
    out.push_back(fields::options(case.segments, case.sphere_rings));
    out
}

/// The default system, likewise.
fn system(rng: &mut Rng, case: &Case, held: &Case) -> VecDeque<Field> {
    if case.default == held.default && !rng.one_in(8) {
        return VecDeque::new();
    }
    one_byte(rng, DEFAULT_SYSTEM, case.default)
}

fn own(rng: &mut Rng, case: &Case) -> VecDeque<Field> {
    if case.own == 0 { VecDeque::new() } else { one_byte(rng, OWN_SYSTEM, case.own - 1) }
}

/// The degrees mark; radians may have none.
fn degrees(rng: &mut Rng, case: &Case) -> VecDeque<Field> {
    if case.degrees == 0 && !rng.one_in(3) { VecDeque::new() } else { one_byte(rng, DEGREES, case.degrees) }
}

/// A byte's field, now and then after another of the same tag, which it replaces.
fn one_byte(rng: &mut Rng, tag: u8, value: u8) -> VecDeque<Field> {
    let mut out = VecDeque::new();
    if rng.one_in(8) {
        out.push_back(fields::byte(tag, rng.below(2) as u8));
    }
    out.push_back(fields::byte(tag, value));
    out
}

fn ops(case: &Case) -> VecDeque<Field> {
    case.ops.iter().map(fields::operation).collect()
}

/// All fields of some queues, each queue in its order.
fn mixed<const N: usize>(rng: &mut Rng, mut queues: [VecDeque<Field>; N]) -> Vec<Field> {
    let mut out = Vec::new();
    while queues.iter().any(|queue| !queue.is_empty()) {
        let at = rng.below(N);
        out.extend(queues[at].pop_front());
    }
    out
}

/// Segments and rings, accepted or not.
fn any_options(rng: &mut Rng) -> Field {
    let mut count = || rng.pick(&[0, 1, 3, 4, 8, 12, 32, 255, 256, 1024, 1025, 65_535]);
    fields::options(count(), count())
}

/// A field that is no solid. Its numbers may be any, also such as would be refused.
pub fn setting(rng: &mut Rng) -> Field {
    match rng.below(6) {
        0 => any_options(rng),
        1 => fields::byte(DEFAULT_SYSTEM, rng.below(2) as u8),
        2 => fields::byte(OWN_SYSTEM, rng.below(2) as u8),
        3 => fields::byte(DEGREES, rng.below(2) as u8),
        _ => any_operation(rng),
    }
}

fn any_operation(rng: &mut Rng) -> Field {
    let mut case = Case::default();
    operations::refused(rng, &mut case);
    let mut op = case.ops.pop().unwrap_or(Op { kind: 6, numbers: [2.0; 16] });
    if rng.one_in(3) {
        floats::spoil(rng, &mut op.numbers[..OP_NUMBERS[op.kind as usize]]);
    }
    fields::operation(&op)
}

/// Fields after the last solid, which nothing uses: few, now and then more than sixteen operations.
pub fn unused(rng: &mut Rng) -> Vec<Field> {
    let mut out: Vec<Field> = (0..rng.between(1, 5)).map(|_| setting(rng)).collect();
    if rng.one_in(8) {
        out.extend((0..rng.between(12, 20)).map(|_| any_operation(rng)));
    }
    out
}
