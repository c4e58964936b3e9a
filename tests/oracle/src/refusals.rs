//! The refusals, from the text of docs/SCOPE.md, "Refusals". Each function returns one of its numbers, or 0.
use crate::case::*;
use crate::reference;

pub const NOT_FINITE: u32 = 1;
pub const ANGLE: u32 = 2;
pub const SEGMENTS: u32 = 3;
pub const LIST: u32 = 4;
pub const POINT: u32 = 5;
pub const WORK: u32 = 6;
pub const PLACES: u32 = 7;
pub const MESH: u32 = 8;
pub const LENGTH: u32 = 9;
pub const UNKNOWN: u32 = 10;
pub const NO_SOLID: u32 = 11;

fn finite(list: &[f64]) -> bool {
    list.iter().all(|x| x.is_finite())
}

fn exceeds(angle: f64) -> bool {
    angle.abs() > 1000.0
}

/// Tessellation's checks 6, 3, 4, 1, 2, in this order.
pub fn before_tessellation(case: &Case) -> u32 {
    let list = if case.items().is_some() { &case.list[..] } else { &[] };
    if (case.work_numbers as u64) < 2 * (case.vertex_floats as u64 / 3) {
        WORK
    } else if case.segments > 1024 || case.sphere_rings > 1024 {
        SEGMENTS
    } else if case.items().is_some_and(|(size, most)| broken(list, size, most)) || case.ops.len() > 16 {
        LIST
    } else if !finite(case.given()) || !finite(list) || !case.ops.iter().all(|op| finite(op.given())) {
        NOT_FINITE
    } else if shape_angles(case).any(exceeds) || op_angles(case).any(exceeds) {
        ANGLE
    } else {
        0
    }
}

/// 4 for a list: not whole items, or too many.
fn broken(list: &[f64], size: usize, most: usize) -> bool {
    !list.len().is_multiple_of(size) || list.len() / size > most
}

/// The start and stop angle of a rotated outline, and the angles of points and boxes taken as cylindrical.
pub fn shape_angles(case: &Case) -> impl Iterator<Item = f64> {
    let own = if case.own == 0 { case.default == 1 } else { case.own == 2 };
    let n = &case.numbers;
    let every = |size: usize, first: usize| case.list.chunks_exact(size).map(move |c| c[first]);
    let angles: Vec<f64> = match case.shape {
        ROT_POLY => vec![n[1], n[2]],
        SPHERE | SPHERICAL_SHELL if own => vec![n[1]],
        BOX | CYLINDER | CYLINDRICAL_SHELL if own => vec![n[1], n[4]],
        WIRE if own => every(3, 1).collect(),
        // A multi-box is in the default system, whatever its own.
        MULTI_BOX if case.default == 1 => every(6, 1).chain(every(6, 4)).collect(),
        _ => Vec::new(),
    };
    angles.into_iter()
}

/// The operations' angles in radians.
pub fn op_angles(case: &Case) -> impl Iterator<Item = f64> + '_ {
    let radians = |a: f64| if case.degrees == 1 { a.to_radians() } else { a };
    case.ops.iter().filter_map(move |op| match op.kind {
        2 => Some(radians(op.numbers[3])),
        3..=5 => Some(radians(op.numbers[0])),
        _ => None,
    })
}

/// Clipping's checks 4, 1.
pub fn before_clipping(case: &Case) -> u32 {
    if broken(&case.list, 2, 512) {
        LIST
    } else if !finite(&case.list) {
        NOT_FINITE
    } else {
        0
    }
}

/// A mesh in lent slices: its record is the counts and the box.
#[derive(Clone, Debug)]
pub struct Lent {
    pub vertices: Vec<f64>,
    pub triangles: Vec<u32>,
    pub vertex_count: u32,
    pub triangle_count: u32,
    pub bounds: Bounds,
}

/// The empty record, and slices of no places.
impl Default for Lent {
    fn default() -> Lent {
        Lent { vertices: Vec::new(), triangles: Vec::new(), vertex_count: 0, triangle_count: 0, bounds: EMPTY_BOX }
    }
}

impl Lent {
    pub fn vertex_places(&self) -> usize {
        self.vertices.len() / 3
    }

    pub fn triangle_places(&self) -> usize {
        self.triangles.len() / 3
    }

    /// The floats of the counted vertices. The counts must be within the slices.
    pub fn counted_vertices(&self) -> &[f64] {
        &self.vertices[..3 * self.vertex_count as usize]
    }

    pub fn counted_triangles(&self) -> &[u32] {
        &self.triangles[..3 * self.triangle_count as usize]
    }

    /// 8, asked first: a count beyond its slice, or a triangle number at or above the vertex count.
    pub fn broken(&self) -> bool {
        self.vertex_count as usize > self.vertex_places()
            || self.triangle_count as usize > self.triangle_places()
            || self.counted_triangles().iter().any(|&v| v >= self.vertex_count)
    }

    /// 1, on the counted vertices.
    pub fn not_finite(&self) -> bool {
        !finite(self.counted_vertices())
    }

    /// 8, asked after 1: the record has another box than `bounding_box` of the counted vertices. Floats are compared: −0.0 equals +0.0, a
    /// NaN equals nothing.
    fn wrong_box(&self) -> bool {
        self.bounds != reference::bounds_of(self.counted_vertices())
    }
}

/// 8, then 1, then 8 for the box: what flip and the measures check.
pub fn of_mesh(mesh: &Lent) -> u32 {
    if mesh.broken() {
        MESH
    } else if mesh.not_finite() {
        NOT_FINITE
    } else if mesh.wrong_box() {
        MESH
    } else {
        0
    }
}

/// Append's 8 on either mesh, 1 on either, 8 for the box of either, then 7.
pub fn of_append(a: &Lent, b: &Lent) -> u32 {
    let both = |x: u32, y: u32| x as usize + y as usize;
    if a.broken() || b.broken() {
        MESH
    } else if a.not_finite() || b.not_finite() {
        NOT_FINITE
    } else if a.wrong_box() || b.wrong_box() {
        MESH
    } else if too_many(
        both(a.vertex_count, b.vertex_count),
        both(a.triangle_count, b.triangle_count),
        a.vertex_places(),
        a.triangle_places(),
    ) {
        PLACES
    } else {
        0
    }
}

/// Transform's 8, 4 on the operations, 1 on the counted vertices and the operations, 8 for the box, 2.
pub fn of_transform(mesh: &Lent, case: &Case) -> u32 {
    if mesh.broken() {
        MESH
    } else if case.ops.len() > 16 {
        LIST
    } else if mesh.not_finite() || !case.ops.iter().all(|op| finite(op.given())) {
        NOT_FINITE
    } else if mesh.wrong_box() {
        MESH
    } else if op_angles(case).any(exceeds) {
        ANGLE
    } else {
        0
    }
}

/// 7: more vertices or triangles than whole places, or than a 32-bit number counts.
pub fn too_many(vertices: usize, triangles: usize, vertex_places: usize, triangle_places: usize) -> bool {
    let most = u32::MAX as usize;
    vertices > vertex_places || triangles > triangle_places || vertices > most || triangles > most
}
