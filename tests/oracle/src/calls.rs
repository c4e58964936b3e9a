//! The calls: refusals and fill from the text of docs/SCOPE.md, all else from the Rust.
use crate::case::*;
use crate::fixture;
use crate::reference;
use crate::refusals::{self, Lent, PLACES, POINT};
use csx::added::triangulate_counted;
use csx::tessellate::TriMesh;
use std::io::{self, Write};

const FILL: u8 = 0xA5;

/// The meshes A and B.
#[derive(Clone, Default)]
pub struct Meshes {
    pub a: Lent,
    pub b: Lent,
}

impl Meshes {
    /// Runs a case and writes its result.
    pub fn run(&mut self, case: &Case, to: &mut impl Write) -> io::Result<()> {
        let refusal = match case.what {
            TESSELLATE => self.tessellate(case),
            CLIP => return clip(case, to),
            APPEND => self.append(),
            FLIP => self.flip(),
            TRANSFORM => self.transform(case),
            MEASURE => return measure(&self.a, to),
            PLAN => return plan(case, to),
            EXCHANGE => {
                std::mem::swap(&mut self.a, &mut self.b);
                return write_words(to, &[0]);
            }
            LOAD => {
                self.a = loaded(case);
                0
            }
            other => panic!("no call {other}"),
        };
        write_words(to, &[refusal, self.a.vertex_count, self.a.triangle_count])?;
        write_floats(to, &self.a.bounds)?;
        write_floats(to, &self.a.vertices)?;
        write_words(to, &self.a.triangles)?;
        if case.what == TESSELLATE {
            // The work slice ends all zero either way.
            write_words(to, &vec![0; case.work_numbers as usize])?;
        }
        Ok(())
    }

    fn tessellate(&mut self, case: &Case) -> u32 {
        self.a = Lent {
            vertices: vec![0.0; case.vertex_floats as usize],
            triangles: vec![0; case.triangle_numbers as usize],
            ..Lent::default()
        };
        match tessellate(case) {
            Ok(mesh) => {
                put(&mut self.a, &mesh);
                0
            }
            Err(refusal) => refusal,
        }
    }

    fn append(&mut self) -> u32 {
        let refusal = refusals::of_append(&self.a, &self.b);
        if refusal == 0 {
            let mut mesh = taken(&self.a);
            mesh.append(&taken(&self.b));
            put(&mut self.a, &mesh);
        }
        refusal
    }

    fn flip(&mut self) -> u32 {
        let refusal = refusals::of_mesh(&self.a);
        if refusal == 0 {
            let mut mesh = taken(&self.a);
            mesh.flip();
            put(&mut self.a, &mesh);
        }
        refusal
    }

    fn transform(&mut self, case: &Case) -> u32 {
        let refusal = refusals::of_transform(&self.a, case);
        if refusal == 0 && !case.ops.is_empty() {
            let mut mesh = taken(&self.a);
            mesh.transform(reference::transform(case).matrix());
            if !finite(&mesh) {
                return POINT;
            }
            put(&mut self.a, &mesh);
        }
        refusal
    }
}

/// The mesh that a load makes. Nothing is checked.
pub fn loaded(case: &Case) -> Lent {
    let mut vertices = vec![f64::from_bits(u64::from_le_bytes([FILL; 8])); case.vertex_floats as usize];
    let mut triangles = vec![u32::from_le_bytes([FILL; 4]); case.triangle_numbers as usize];
    vertices.iter_mut().zip(&case.list).for_each(|(to, from)| *to = *from);
    triangles.iter_mut().zip(&case.triangles).for_each(|(to, from)| *to = *from);
    let (vertex_count, triangle_count) = (case.vertex_count, case.triangle_count);
    Lent { vertices, triangles, vertex_count, triangle_count, bounds: case.claimed() }
}

/// The mesh of a case, or the refusal: 6, 3, 4, 1, 2, then 5 over the soup, 7, and 5 over the transformed vertices.
pub fn tessellate(case: &Case) -> Result<TriMesh, u32> {
    match refusals::before_tessellation(case) {
        0 => (),
        refusal => return Err(refusal),
    }
    let soup = reference::untransformed(case);
    if !finite(&soup) {
        return Err(POINT);
    }
    let (vertices, triangles) = (soup.vertices.len(), soup.triangles.len());
    let places = [case.vertex_floats, case.triangle_numbers].map(|length| length as usize / 3);
    if refusals::too_many(vertices, triangles, places[0], places[1]) {
        return Err(PLACES);
    }
    if case.ops.is_empty() {
        return Ok(soup);
    }
    let mesh = reference::transformed(case);
    if finite(&mesh) { Ok(mesh) } else { Err(POINT) }
}

fn clip(case: &Case, to: &mut impl Write) -> io::Result<()> {
    let mut slice = vec![0; case.triangle_numbers as usize];
    let mut counts = [0, 0];
    let mut refusal = refusals::before_clipping(case);
    if refusal == 0 {
        let (triangles, removed) = triangulate_counted(&pairs(&case.list));
        if triangles.len() > slice.len() / 3 {
            refusal = PLACES;
        } else {
            counts = [triangles.len() as u32, removed as u32];
            let numbers = triangles.iter().flatten();
            slice.iter_mut().zip(numbers).for_each(|(to, from)| *to = *from as u32);
        }
    }
    write_words(to, &[refusal, counts[0], counts[1]])?;
    write_words(to, &slice)
}

fn measure(lent: &Lent, to: &mut impl Write) -> io::Result<()> {
    let refusal = refusals::of_mesh(lent);
    let mut bits = [0; 9];
    if refusal == 0 {
        let mesh = taken(lent);
        let volume = mesh.signed_volume();
        let number = |x: f64| if x.is_nan() { 0x7FF8_0000_0000_0000 } else { x.to_bits() };
        bits[..3].copy_from_slice(&[volume, volume.abs(), mesh.area()].map(number));
        bits[3..].copy_from_slice(&reference::bounds(&mesh).map(f64::to_bits));
    }
    write_words(to, &[refusal])?;
    bits.iter().try_for_each(|b| to.write_all(&b.to_le_bytes()))
}

/// The planner's call on a file, which writes every byte of its output.
fn plan(case: &Case, to: &mut impl Write) -> io::Result<()> {
    let mut output = vec![FILL; case.output_bytes as usize];
    let refusal = fixture::plan(&case.file.0, &mut output);
    write_words(to, &[refusal])?;
    to.write_all(&output)
}

fn finite(mesh: &TriMesh) -> bool {
    mesh.vertices.iter().all(|v| v.is_finite())
}

/// The counted part of lent slices as the reference's mesh.
fn taken(lent: &Lent) -> TriMesh {
    TriMesh {
        vertices: reference::points(lent.counted_vertices()),
        triangles: lent.counted_triangles().chunks_exact(3).map(|c| [c[0], c[1], c[2]]).collect(),
    }
}

/// A mesh into lent slices, and its record. Places beyond it stay.
fn put(lent: &mut Lent, mesh: &TriMesh) {
    lent.vertex_count = mesh.vertices.len() as u32;
    lent.triangle_count = mesh.triangles.len() as u32;
    lent.bounds = reference::bounds(mesh);
    let floats = mesh.vertices.iter().flat_map(|v| v.0);
    lent.vertices.iter_mut().zip(floats).for_each(|(to, from)| *to = from);
    let numbers = mesh.triangles.iter().flatten();
    lent.triangles.iter_mut().zip(numbers).for_each(|(to, from)| *to = *from);
}
