//! Files of solids, and the planner's call on one, written from docs/SCOPE.md alone.
//!
//! A file is a run of fields. A field is its tag in 1 byte, the length of its payload in 2, and the payload. A count has 2 bytes and a float 8; every
//! number has its low byte first. The payloads, by hexadecimal tags:
//!
//! - 01: segments, rings. Where the file has not said otherwise they are 32 and 16.
//! - 02: the default system. Where the file has not said otherwise it is Cartesian.
//! - 03, 04, 05, all of them for the next solid only: its own system; its degrees mark; an operation, which is added to those before it.
//! - 10 to 19: a solid, in the order of the shapes of a case: its direction bytes, its single numbers, its list.
use crate::calls::tessellate;
use crate::case::*;
use crate::refusals::{LENGTH, NO_SOLID, PLACES, UNKNOWN};
use csx::tessellate::TriMesh;

/// The most bytes of a file.
pub const LONGEST: usize = 65_535;

pub const OPTIONS: u8 = 0x01;
pub const DEFAULT_SYSTEM: u8 = 0x02;
pub const OWN_SYSTEM: u8 = 0x03;
pub const DEGREES: u8 = 0x04;
pub const OPERATION: u8 = 0x05;
/// The tag of a box. The other solids' tags follow it, in the order of the shapes.
pub const FIRST_SOLID: u8 = 0x10;
pub const LAST_SOLID: u8 = FIRST_SOLID + WIRE;

/// How many direction bytes each shape has.
pub const DIRECTIONS: [usize; 10] = [0, 0, 0, 0, 0, 0, 1, 1, 2, 0];

/// The planner's call: 0 or the refusal. Every byte of the output is written: the mesh and zeros after it, or zeros alone.
pub fn plan(file: &[u8], output: &mut [u8]) -> u32 {
    output.fill(0);
    match mesh(file) {
        Err(refusal) => refusal,
        Ok(mesh) if bytes_of(&mesh) > output.len() => PLACES,
        Ok(mesh) => {
            put(&mesh, output).expect("there is room");
            0
        }
    }
}

/// The bytes of a mesh in the output.
pub fn bytes_of(mesh: &TriMesh) -> usize {
    8 + 24 * mesh.vertices.len() + 12 * mesh.triangles.len()
}

fn put(mesh: &TriMesh, mut to: &mut [u8]) -> std::io::Result<()> {
    write_words(&mut to, &[mesh.vertices.len() as u32, mesh.triangles.len() as u32])?;
    mesh.vertices.iter().try_for_each(|vertex| write_floats(&mut to, &vertex.0))?;
    mesh.triangles.iter().try_for_each(|triangle| write_words(&mut to, triangle))
}

/// The meshes of a file's solids, one after another, or the first refusal. All fields are read before the first solid is made.
pub fn mesh(file: &[u8]) -> Result<TriMesh, u32> {
    let solids = solids(file)?;
    if solids.is_empty() {
        return Err(NO_SOLID);
    }
    let mut all = TriMesh::new();
    for solid in &solids {
        all.append(&tessellate(solid)?);
    }
    Ok(all)
}

/// The solids of a file in their order, each as a call of tessellate; or the refusal of the file's length or of the first field that has one.
pub fn solids(file: &[u8]) -> Result<Vec<Case>, u32> {
    if file.len() > LONGEST { Err(LENGTH) } else { listed(file) }
}

/// The solids of fields, whatever the length of all, or the first refusal of a field.
pub fn listed(fields: &[u8]) -> Result<Vec<Case>, u32> {
    let (mut solids, mut next) = (Vec::new(), first_settings());
    let mut rest = fields;
    while !rest.is_empty() {
        let (tag, payload) = field(rest)?;
        rest = &rest[3 + payload.len()..];
        if tag < FIRST_SOLID {
            set(&mut next, tag, payload);
        } else {
            let settings = (next.segments, next.sphere_rings, next.default);
            draw(&mut next, tag - FIRST_SOLID, payload);
            solids.push(next);
            next = first_settings();
            (next.segments, next.sphere_rings, next.default) = settings;
        }
    }
    Ok(solids)
}

/// A call of tessellate with the settings that a file begins with and the places that each solid of a file has.
pub fn first_settings() -> Case {
    Case {
        what: TESSELLATE,
        segments: 32,
        sphere_rings: 16,
        vertex_floats: 3 * 1024,
        triangle_numbers: 3 * 2048,
        work_numbers: 2048,
        ..Case::default()
    }
}

/// The tag and the payload of the first field of some bytes; or its refusal, 10 before 9.
pub fn field(bytes: &[u8]) -> Result<(u8, &[u8]), u32> {
    if unknown(bytes) {
        return Err(UNKNOWN);
    }
    let length = length(bytes).ok_or(LENGTH)?;
    let payload = bytes.get(3..3 + length).ok_or(LENGTH)?;
    if fits(bytes[0], payload) { Ok((bytes[0], payload)) } else { Err(LENGTH) }
}

/// The length that the first field gives, if both of its bytes are there.
pub fn length(bytes: &[u8]) -> Option<usize> {
    bytes.get(1..3).map(|two| count(two) as usize)
}

/// 10: the tag is unknown, or the payload's first byte, where that is a system, a mark or a kind and is there. A payload of length 0 has none.
fn unknown(bytes: &[u8]) -> bool {
    let first = if length(bytes) == Some(0) { None } else { bytes.get(3) };
    match bytes[0] {
        OPTIONS | FIRST_SOLID..=LAST_SOLID => false,
        DEFAULT_SYSTEM | OWN_SYSTEM | DEGREES => first.is_some_and(|&byte| byte > 1),
        OPERATION => first.is_some_and(|kind| !(1..=8).contains(kind)),
        _ => true,
    }
}

/// Whether a payload has a length that its tag has, an operation's one that its kind has. A list may be empty.
pub fn fits(tag: u8, payload: &[u8]) -> bool {
    let length = payload.len();
    match tag {
        OPTIONS => length == 4,
        DEFAULT_SYSTEM | OWN_SYSTEM | DEGREES => length == 1,
        OPERATION => payload.first().is_some_and(|&kind| length == 1 + 8 * OP_NUMBERS[kind as usize]),
        _ => {
            let shape = tag - FIRST_SOLID;
            let single = DIRECTIONS[shape as usize] + 8 * NUMBERS[shape as usize];
            match (Case { shape, ..Case::default() }).items() {
                None => length == single,
                Some((floats, _)) => length >= single && (length - single).is_multiple_of(8 * floats),
            }
        }
    }
}

/// What a field below 10 says, taken down for the next solid. Its first byte is known and its length right.
fn set(next: &mut Case, tag: u8, payload: &[u8]) {
    match tag {
        OPTIONS => (next.segments, next.sphere_rings) = (count(&payload[..2]), count(&payload[2..])),
        DEFAULT_SYSTEM => next.default = payload[0],
        // In a case 0 stands for no system of its own.
        OWN_SYSTEM => next.own = payload[0] + 1,
        DEGREES => next.degrees = payload[0],
        _ => {
            let mut op = Op { kind: payload[0], numbers: [0.0; 16] };
            op.numbers.iter_mut().zip(floats(&payload[1..])).for_each(|(to, from)| *to = from);
            next.ops.push(op);
        }
    }
}

/// A solid's field, whose length is right, taken down beside the settings.
fn draw(next: &mut Case, shape: u8, payload: &[u8]) {
    next.shape = shape;
    let (directions, numbers) = payload.split_at(DIRECTIONS[shape as usize]);
    next.norm_dir = directions.first().copied().unwrap_or(0);
    next.rot_axis_dir = directions.get(1).copied().unwrap_or(0);
    let mut numbers = floats(numbers);
    next.numbers.iter_mut().zip(numbers.by_ref().take(NUMBERS[shape as usize])).for_each(|(to, from)| *to = from);
    next.list = numbers.collect();
}

fn count(two: &[u8]) -> u32 {
    two[0] as u32 + 256 * two[1] as u32
}

fn floats(bytes: &[u8]) -> impl Iterator<Item = f64> + '_ {
    bytes.chunks_exact(8).map(|eight| f64::from_bits(u64::from_le_bytes(eight.try_into().unwrap())))
}
