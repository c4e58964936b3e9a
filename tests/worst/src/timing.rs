//! Ours and the Rust on one drawing.
use crate::drawings::{Drawing, Input};
use crate::soup_count;
use csx_plain::primitives::Primitive;
use csx_plain::tessellate::{TessellationOptions, TriMesh};
use csx_plain::{CoordSystem, Vec3};
use sides::clock::{median, timed};
use sides::ours::{self, Lent};
use sides::rust;
use std::hint::black_box;

/// A sample lasts at least this long: small calls are repeated within it.
const SAMPLE_NS: f64 = 5e4;
/// Below this ratio a single measurement is not believed.
pub const SUSPICIOUS: f64 = 1.3;
/// So many times is a suspicious drawing measured again; medians count.
pub const TURNS: usize = 9;
/// The refusal of a mesh that does not fit.
const NO_ROOM: u32 = 7;

/// Nanoseconds a call.
pub struct Times {
    pub ours: f64,
    pub rust: f64,
}

impl Times {
    pub fn ratio(&self) -> f64 {
        self.rust / self.ours
    }
}

/// The Rust's input.
enum Given {
    Solid(Box<Primitive>, CoordSystem, TessellationOptions),
    Soup(Vec<[Vec3; 3]>),
}

/// A drawing that ours accepts, with slices that have exactly the places of the result.
pub struct Ready<'a> {
    drawing: &'a Drawing,
    given: Given,
    lent: Lent,
    /// Of the soup.
    pub triangles: usize,
}

impl Ready<'_> {
    /// None where ours refuses the drawing.
    pub fn new(drawing: &Drawing) -> Option<Ready<'_>> {
        let given = match &drawing.input {
            Input::Soup(list) => Given::Soup(list.chunks_exact(9).map(triangle).collect()),
            Input::Solid { solid, segments, rings } => {
                Given::Solid(Box::new(rust::primitive(solid)), rust::system(solid), rust::options(*segments, *rings))
            }
        };
        let triangles = soup_count::triangles(&drawing.input);
        // The unpatched sine has other bits, so that a few more or fewer points may coincide than in ours.
        let vertices = rust_mesh(&given).vertices.len();
        let mut lent = Lent::new(vertices + vertices / 8 + 64, triangles);
        let mut refusal = our_mesh(&drawing.input, &mut lent);
        if refusal == NO_ROOM {
            lent = Lent::new(3 * triangles, triangles);
            refusal = our_mesh(&drawing.input, &mut lent);
        }
        assert_ne!(refusal, NO_ROOM, "{}: more triangles than its soup", drawing.text());
        if refusal != 0 {
            return None;
        }
        lent.vertices.truncate(3 * lent.vertex_count);
        lent.triangles.truncate(3 * lent.triangle_count);
        lent.work.truncate(2 * lent.vertex_count);
        Some(Ready { drawing, given, lent, triangles })
    }

    /// Vertices and triangles of ours.
    pub fn counts(&self) -> (usize, usize) {
        (self.lent.vertex_count, self.lent.triangle_count)
    }

    /// Medians over so many turns.
    pub fn times(&mut self, turns: usize) -> Times {
        let (mut ours, mut rust) = (Vec::new(), Vec::new());
        for _ in 0..turns {
            ours.push(sample(|| _ = black_box(our_mesh(black_box(&self.drawing.input), &mut self.lent))));
            rust.push(sample(|| _ = black_box(rust_mesh(black_box(&self.given)))));
        }
        Times { ours: median(ours), rust: median(rust) }
    }
}

fn triangle(c: &[f64]) -> [Vec3; 3] {
    [Vec3::new(c[0], c[1], c[2]), Vec3::new(c[3], c[4], c[5]), Vec3::new(c[6], c[7], c[8])]
}

fn our_mesh(input: &Input, lent: &mut Lent) -> u32 {
    match input {
        Input::Soup(list) => ours::from_soup(list, lent),
        Input::Solid { solid, segments, rings } => ours::tessellate(solid, *segments, *rings, lent),
    }
}

fn rust_mesh(given: &Given) -> TriMesh {
    match given {
        Given::Solid(primitive, system, options) => rust::tessellate(primitive, *system, options),
        Given::Soup(soup) => TriMesh::from_soup(soup),
    }
}

/// Nanoseconds a call, over as many calls as make a sample.
fn sample(mut call: impl FnMut()) -> f64 {
    let mut n = 1;
    loop {
        let spent = timed(|| (0..n).for_each(|_| call()));
        if spent >= SAMPLE_NS {
            return spent / n as f64;
        }
        n = (n as f64 * (1.2 * SAMPLE_NS / spent.max(100.0)).max(2.0)) as usize;
    }
}
