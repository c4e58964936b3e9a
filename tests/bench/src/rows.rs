//! What is measured: for each row a call of ours and a call of the Rust, on the same input.
use crate::inputs::{grid, ring, screw, star};
use csx_plain::tessellate::TriMesh;
use csx_plain::{Mat4, Vec3};
use sides::ours::{self, Bounds, Lent, Solid};
use sides::rust;
use std::cell::RefCell;
use std::f64::consts::TAU;
use std::hint::black_box;
use std::rc::Rc;

pub struct Row {
    pub name: &'static str,
    /// By which the time of a call is divided.
    pub triangles: usize,
    pub ours: Side,
    pub rust: Side,
}

/// How a side of a row is called.
pub enum Side {
    /// Again and again, on the same input.
    Again(Box<dyn FnMut()>),
    /// Each time on an input that is made anew; making it does not count.
    Prepared { prepare: Box<dyn FnMut()>, call: Box<dyn FnMut()> },
}

fn again(call: impl FnMut() + 'static) -> Side {
    Side::Again(Box::new(call))
}

/// A call on what `make` makes. The result is dropped before the next one is made, outside of the time.
fn prepared<T: 'static>(mut make: impl FnMut() -> T + 'static, mut call: impl FnMut(&mut T) + 'static) -> Side {
    let made = Rc::new(RefCell::new(None));
    let taken = Rc::clone(&made);
    Side::Prepared {
        prepare: Box::new(move || {
            made.take();
            made.replace(Some(make()));
        }),
        call: Box::new(move || call(taken.borrow_mut().as_mut().expect("an input for each call"))),
    }
}

/// The rows by name; a row is built when it is run.
pub const ROWS: [(&str, fn(&'static str) -> Row); 16] = [
    ("sphere 32x16", |name| sphere(name, 32, 16)),
    ("sphere 256x128", |name| sphere(name, 256, 128)),
    ("sphere 1024x1024", |name| sphere(name, 1024, 1024)),
    ("cylinder 1024", cylinder),
    ("box", a_box),
    ("star 512 extruded", extruded),
    ("outline 64 rotated 128", rotated),
    ("wire 256 32/16", wire),
    ("area", area),
    ("signed_volume", signed_volume),
    ("bounding_box", bounding_box),
    ("append to a new mesh", append_to_new),
    ("append with room", append_with_room),
    ("flip", flip),
    ("transform", transform),
    ("from_soup 1000000", from_soup),
];

/// Stops where the counts, the triangles or the boxes differ. Bits are not compared here (the unpatched sine has others), but by tests/compare.
fn agree(name: &str, refusal: u32, lent: &Lent, mesh: &TriMesh) {
    assert_eq!(refusal, 0, "{name}: refused");
    let counts = (mesh.vertices.len(), mesh.triangles.len());
    assert_eq!((lent.vertex_count, lent.triangle_count), counts, "{name}: the counts differ");
    assert!(lent.triangles.chunks_exact(3).zip(&mesh.triangles).all(|(t, u)| t == u), "{name}: the triangles differ");
    near_boxes(name, &lent.bounds, mesh);
}

/// A solid on both sides. The vertex and triangle slices have exactly the places that the result needs, as a caller lends them that knows
/// its size; the work slice has two numbers for each vertex place, the fewest that are accepted.
fn solid(name: &'static str, solid: Solid, segments: usize, rings: usize) -> Row {
    let (primitive, system, options) = (rust::primitive(&solid), rust::system(&solid), rust::options(segments, rings));
    let mesh = rust::tessellate(&primitive, system, &options);
    let mut lent = Lent::new(mesh.vertices.len(), mesh.triangles.len());
    agree(name, ours::tessellate(&solid, segments, rings, &mut lent), &lent, &mesh);
    Row {
        name,
        triangles: mesh.triangles.len(),
        ours: again(move || _ = black_box(ours::tessellate(black_box(&solid), segments, rings, &mut lent))),
        rust: again(move || _ = black_box(rust::tessellate(black_box(&primitive), system, &options))),
    }
}

const CENTER: [f64; 3] = [0.5, 1.0, 2.0];

fn sphere(name: &'static str, segments: usize, rings: usize) -> Row {
    solid(name, Solid::Sphere(CENTER, 1.5), segments, rings)
}

fn cylinder(name: &'static str) -> Row {
    solid(name, Solid::Cylinder([0.5, 1.0, 2.0], [1.5, 3.0, 5.0], 1.5), 1024, 16)
}

fn a_box(name: &'static str) -> Row {
    solid(name, Solid::Box([0.0, 0.0, 0.0], [1.0, 2.0, 3.0]), 32, 16)
}

fn extruded(name: &'static str) -> Row {
    solid(name, Solid::Extruded(2, 1.0, 2.0, star(512)), 32, 16)
}

fn rotated(name: &'static str) -> Row {
    solid(name, Solid::Rotated(1, 0.0, 2, 0.0, TAU, ring(64)), 128, 16)
}

fn wire(name: &'static str) -> Row {
    solid(name, Solid::Wire(0.05, screw(256)), 32, 16)
}

/// The sphere of the mesh rows, by the Rust.
fn ball() -> TriMesh {
    let solid = Solid::Sphere(CENTER, 1.5);
    rust::tessellate(&rust::primitive(&solid), rust::system(&solid), &rust::options(256, 128))
}

/// The sphere of the mesh rows, on both sides, in slices with places for `times` as much.
fn meshes(name: &str, times: usize) -> (Lent, TriMesh) {
    let mesh = ball();
    let mut lent = Lent::new(times * mesh.vertices.len(), times * mesh.triangles.len());
    agree(name, ours::tessellate(&Solid::Sphere(CENTER, 1.5), 256, 128, &mut lent), &lent, &mesh);
    (lent, mesh)
}

fn near(name: &str, x: f64, y: f64) {
    assert!((x - y).abs() <= 1e-9 * y.abs(), "{name}: {x} and {y}");
}

fn near_boxes(name: &str, bounds: &Bounds, mesh: &TriMesh) {
    let other = mesh.bounding_box();
    let others = other.min.0.iter().chain(&other.max.0);
    bounds.iter().zip(others).for_each(|(x, y)| assert!((x - y).abs() <= 1e-9, "{name}: bounds {x} and {y}"));
}

fn area(name: &'static str) -> Row {
    let (lent, mesh) = meshes(name, 1);
    near(name, ours::area(&lent), mesh.area());
    Row {
        name,
        triangles: mesh.triangles.len(),
        ours: again(move || _ = black_box(ours::area(black_box(&lent)))),
        rust: again(move || _ = black_box(black_box(&mesh).area())),
    }
}

fn signed_volume(name: &'static str) -> Row {
    let (lent, mesh) = meshes(name, 1);
    near(name, ours::signed_volume(&lent), mesh.signed_volume());
    Row {
        name,
        triangles: mesh.triangles.len(),
        ours: again(move || _ = black_box(ours::signed_volume(black_box(&lent)))),
        rust: again(move || _ = black_box(black_box(&mesh).signed_volume())),
    }
}

fn bounding_box(name: &'static str) -> Row {
    let (lent, mesh) = meshes(name, 1);
    let (refusal, bounds) = ours::bounding_box(&lent);
    assert_eq!(refusal, 0, "{name}: refused");
    near_boxes(name, &bounds, &mesh);
    Row {
        name,
        triangles: mesh.triangles.len(),
        ours: again(move || _ = black_box(ours::bounding_box(black_box(&lent)))),
        rust: again(move || _ = black_box(black_box(&mesh).bounding_box())),
    }
}

/// The sphere appended to the sphere, each time to one that `tessellate` has just made: ours in slices with places for both,
/// the Rust's in lists as its `tessellate` leaves them, which grow in the call. The triangles that are appended count.
fn append_to_new(name: &'static str) -> Row {
    let (other, more) = meshes(name, 1);
    let (mut lent, mut mesh) = meshes(name, 2);
    let triangles = mesh.triangles.len();
    mesh.append(&more);
    agree(name, ours::append(&mut lent, &other), &lent, &mesh);
    let lent = Rc::new(RefCell::new(lent));
    Row {
        name,
        triangles,
        ours: prepared(
            move || {
                let refusal = ours::tessellate(&Solid::Sphere(CENTER, 1.5), 256, 128, &mut lent.borrow_mut());
                assert_eq!(refusal, 0, "{name}: refused");
                Rc::clone(&lent)
            },
            move |lent| _ = black_box(ours::append(black_box(&mut lent.borrow_mut()), &other)),
        ),
        rust: prepared(ball, move |mesh| black_box(mesh).append(&more)),
    }
}

/// The same on meshes that are cut back to their first counts before each call, ours to its first box too. The Rust's lists keep their capacity, so that
/// neither side allocates.
fn append_with_room(name: &'static str) -> Row {
    let (other, more) = meshes(name, 1);
    let (mut lent, mut mesh) = meshes(name, 2);
    let (n, k, bounds) = (mesh.vertices.len(), mesh.triangles.len(), lent.bounds);
    mesh.append(&more);
    agree(name, ours::append(&mut lent, &other), &lent, &mesh);
    Row {
        name,
        triangles: k,
        ours: again(move || {
            (lent.vertex_count, lent.triangle_count, lent.bounds) = (n, k, bounds);
            black_box(ours::append(black_box(&mut lent), &other));
        }),
        rust: again(move || {
            mesh.vertices.truncate(n);
            mesh.triangles.truncate(k);
            black_box(&mut mesh).append(&more);
        }),
    }
}

fn flip(name: &'static str) -> Row {
    let (mut lent, mut mesh) = meshes(name, 1);
    mesh.flip();
    agree(name, ours::flip(&mut lent), &lent, &mesh);
    Row {
        name,
        triangles: mesh.triangles.len(),
        ours: again(move || _ = black_box(ours::flip(black_box(&mut lent)))),
        rust: again(move || black_box(&mut mesh).flip()),
    }
}

/// A rotation, then a translation; on both sides the matrix is made in the call. The mesh moves on from call to call.
fn transform(name: &'static str) -> Row {
    let (axis, angle, by) = ([1.0, 2.0, 3.0], 0.001, [0.001, 0.002, -0.001]);
    let matrix = move || Mat4::translation(Vec3(by)) * Mat4::rotation(Vec3(axis), angle);
    let (mut lent, mut mesh) = meshes(name, 1);
    mesh.transform(&matrix());
    agree(name, ours::transform(&mut lent, axis, angle, by), &lent, &mesh);
    let last = mesh.vertices.len() - 1;
    near(name, lent.vertices[3 * last], mesh.vertices[last].0[0]);
    Row {
        name,
        triangles: mesh.triangles.len(),
        ours: again(move || _ = black_box(ours::transform(black_box(&mut lent), axis, angle, by))),
        rust: again(move || black_box(&mut mesh).transform(&black_box(matrix()))),
    }
}

/// Welding alone: a grid of 1000 × 500 squares, whose soup is made before. The Rust's lists and its HashMap grow in the call.
fn from_soup(name: &'static str) -> Row {
    let soup = grid(1000, 500);
    let floats: Vec<f64> = soup.iter().flatten().flat_map(|p| p.0).collect();
    let mesh = TriMesh::from_soup(&soup);
    let mut lent = Lent::new(mesh.vertices.len(), mesh.triangles.len());
    agree(name, ours::from_soup(&floats, &mut lent), &lent, &mesh);
    // No sine here: the bits are the same.
    assert!(lent.vertices.iter().eq(mesh.vertices.iter().flat_map(|p| &p.0)), "{name}: the vertices differ");
    Row {
        name,
        triangles: mesh.triangles.len(),
        ours: again(move || _ = black_box(ours::from_soup(black_box(&floats), &mut lent))),
        rust: again(move || _ = black_box(TriMesh::from_soup(black_box(&soup)))),
    }
}
