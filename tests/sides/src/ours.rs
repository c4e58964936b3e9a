//! crates/c_solids: a lent slice is a pointer and a length.

/// A box: least x, y, z, greatest x, y, z.
pub type Bounds = [f64; 6];

/// The box of a mesh without vertices.
const EMPTY_BOX: Bounds =
    [f64::INFINITY, f64::INFINITY, f64::INFINITY, f64::NEG_INFINITY, f64::NEG_INFINITY, f64::NEG_INFINITY];

/// The slices of a mesh, lent with exactly the places that its result needs, and its record: the counts and the box.
#[derive(Clone)]
pub struct Lent {
    pub vertices: Vec<f64>,
    pub triangles: Vec<u32>,
    pub work: Vec<u32>,
    pub vertex_count: usize,
    pub triangle_count: usize,
    pub bounds: Bounds,
}

impl Lent {
    /// Places for so many vertices and triangles, and two numbers of work for each vertex place.
    pub fn new(vertices: usize, triangles: usize) -> Self {
        Lent {
            vertices: vec![0.0; 3 * vertices],
            triangles: vec![0; 3 * triangles],
            work: vec![0; 2 * vertices],
            vertex_count: 0,
            triangle_count: 0,
            bounds: EMPTY_BOX,
        }
    }
}

/// A solid as crates/c_solids takes it.
#[derive(Clone, Debug)]
pub enum Solid {
    Box([f64; 3], [f64; 3]),
    /// A box whose corners are (ρ, α, z).
    Sector([f64; 3], [f64; 3]),
    /// Six floats a box.
    MultiBox(Vec<f64>),
    Sphere([f64; 3], f64),
    /// Centre, radius, width.
    SphericalShell([f64; 3], f64, f64),
    Cylinder([f64; 3], [f64; 3], f64),
    /// Ends of the axis, radius, width.
    CylindricalShell([f64; 3], [f64; 3], f64, f64),
    /// Direction, elevation, corners.
    Polygon(u8, f64, Vec<f64>),
    /// Direction, elevation, length, corners.
    Extruded(u8, f64, f64, Vec<f64>),
    /// Direction, elevation, axis, start and stop angle, corners.
    Rotated(u8, f64, u8, f64, f64, Vec<f64>),
    /// Radius, points.
    Wire(f64, Vec<f64>),
}

unsafe extern "C" {
    fn sizturga_bench_solid(
        kind: u8,
        norm_dir: u8,
        rot_axis_dir: u8,
        numbers: *const [f64; 10],
        list: *const f64,
        list_len: usize,
        system: u8,
        segments: usize,
        rings: usize,
        v: *mut f64,
        v_len: usize,
        t: *mut u32,
        t_len: usize,
        work: *mut u32,
        work_len: usize,
        n: *mut usize,
        k: *mut usize,
        bounds: *mut Bounds,
    ) -> u32;
    fn sizturga_bench_area(
        n: usize,
        k: usize,
        bounds: *const Bounds,
        v: *const f64,
        v_len: usize,
        t: *const u32,
        t_len: usize,
    ) -> u64;
    fn sizturga_bench_signed_volume(
        n: usize,
        k: usize,
        bounds: *const Bounds,
        v: *const f64,
        v_len: usize,
        t: *const u32,
        t_len: usize,
    ) -> u64;
    fn sizturga_bench_bounding_box(
        n: usize,
        k: usize,
        bounds: *const Bounds,
        v: *const f64,
        v_len: usize,
        t: *const u32,
        t_len: usize,
        out: *mut Bounds,
    ) -> u32;
    fn sizturga_bench_append(
        n: *mut usize,
        k: *mut usize,
        bounds: *mut Bounds,
        v: *mut f64,
        v_len: usize,
        t: *mut u32,
        t_len: usize,
        other_n: usize,
        other_k: usize,
        other_bounds: *const Bounds,
        other_v: *const f64,
        other_v_len: usize,
        other_t: *const u32,
        other_t_len: usize,
    ) -> u32;
    fn sizturga_bench_flip(
        n: *mut usize,
        k: *mut usize,
        bounds: *mut Bounds,
        v: *const f64,
        v_len: usize,
        t: *mut u32,
        t_len: usize,
    ) -> u32;
    fn sizturga_bench_transform(
        n: *mut usize,
        k: *mut usize,
        bounds: *mut Bounds,
        v: *mut f64,
        v_len: usize,
        t: *mut u32,
        t_len: usize,
        axis_x: f64,
        axis_y: f64,
        axis_z: f64,
        angle: f64,
        x: f64,
        y: f64,
        z: f64,
    ) -> u32;
    fn sizturga_bench_from_soup(
        soup: *const f64,
        soup_len: usize,
        v: *mut f64,
        v_len: usize,
        t: *mut u32,
        t_len: usize,
        work: *mut u32,
        work_len: usize,
        n: *mut usize,
        k: *mut usize,
        bounds: *mut Bounds,
    ) -> u32;
}

/// A solid as `sizturga_bench_solid` takes it: kind, directions, numbers in the Rust's field order, list, system.
struct Fields<'a> {
    kind: u8,
    norm_dir: u8,
    rot_axis_dir: u8,
    numbers: [f64; 10],
    list: &'a [f64],
    system: u8,
}

/// The numbers of two points, and two more.
fn numbers(p: &[f64; 3], q: &[f64; 3], r: f64, width: f64) -> [f64; 10] {
    [p[0], p[1], p[2], q[0], q[1], q[2], r, width, 0.0, 0.0]
}

/// The numbers of a point or an outline.
fn few(n: &[f64]) -> [f64; 10] {
    let mut all = [0.0; 10];
    all[..n.len()].copy_from_slice(n);
    all
}

impl Solid {
    fn fields(&self) -> Fields<'_> {
        let of = |kind, numbers| Fields { kind, norm_dir: 0, rot_axis_dir: 0, numbers, list: &[], system: 0 };
        match self {
            Solid::Box(p, q) => of(0, numbers(p, q, 0.0, 0.0)),
            Solid::Sector(p, q) => Fields { system: 1, ..of(0, numbers(p, q, 0.0, 0.0)) },
            Solid::MultiBox(list) => Fields { list, ..of(1, [0.0; 10]) },
            Solid::Sphere(p, r) => of(2, few(&[p[0], p[1], p[2], *r])),
            Solid::SphericalShell(p, r, w) => of(3, few(&[p[0], p[1], p[2], *r, *w])),
            Solid::Cylinder(p, q, r) => of(4, numbers(p, q, *r, 0.0)),
            Solid::CylindricalShell(p, q, r, w) => of(5, numbers(p, q, *r, *w)),
            Solid::Polygon(d, e, list) => Fields { norm_dir: *d, list, ..of(6, few(&[*e])) },
            Solid::Extruded(d, e, l, list) => Fields { norm_dir: *d, list, ..of(7, few(&[*e, *l])) },
            Solid::Rotated(d, e, a, p, q, list) => {
                Fields { norm_dir: *d, rot_axis_dir: *a, list, ..of(8, few(&[*e, *p, *q])) }
            }
            Solid::Wire(r, list) => Fields { list, ..of(9, few(&[*r])) },
        }
    }
}

/// Tessellates into the lent slices; returns the refusal's number.
pub fn tessellate(solid: &Solid, segments: usize, rings: usize, m: &mut Lent) -> u32 {
    let f = solid.fields();
    let (v, t, w) = (&mut m.vertices, &mut m.triangles, &mut m.work);
    // Each pointer and length are those of a live slice; no two of the slices overlap.
    unsafe {
        sizturga_bench_solid(
            f.kind,
            f.norm_dir,
            f.rot_axis_dir,
            &f.numbers,
            f.list.as_ptr(),
            f.list.len(),
            f.system,
            segments,
            rings,
            v.as_mut_ptr(),
            v.len(),
            t.as_mut_ptr(),
            t.len(),
            w.as_mut_ptr(),
            w.len(),
            &mut m.vertex_count,
            &mut m.triangle_count,
            &mut m.bounds,
        )
    }
}

type Measure = unsafe extern "C" fn(usize, usize, *const Bounds, *const f64, usize, *const u32, usize) -> u64;

fn measure(call: Measure, m: &Lent) -> f64 {
    let (v, t) = (&m.vertices, &m.triangles);
    let (n, k) = (m.vertex_count, m.triangle_count);
    f64::from_bits(unsafe { call(n, k, &m.bounds, v.as_ptr(), v.len(), t.as_ptr(), t.len()) })
}

pub fn area(m: &Lent) -> f64 {
    measure(sizturga_bench_area, m)
}

pub fn signed_volume(m: &Lent) -> f64 {
    measure(sizturga_bench_signed_volume, m)
}

/// The refusal's number, and the box.
pub fn bounding_box(m: &Lent) -> (u32, Bounds) {
    let (v, t) = (&m.vertices, &m.triangles);
    let mut out = [0.0; 6];
    let refusal = unsafe {
        sizturga_bench_bounding_box(
            m.vertex_count,
            m.triangle_count,
            &m.bounds,
            v.as_ptr(),
            v.len(),
            t.as_ptr(),
            t.len(),
            &mut out,
        )
    };
    (refusal, out)
}

pub fn append(m: &mut Lent, o: &Lent) -> u32 {
    let (v, t) = (&mut m.vertices, &mut m.triangles);
    unsafe {
        sizturga_bench_append(
            &mut m.vertex_count,
            &mut m.triangle_count,
            &mut m.bounds,
            v.as_mut_ptr(),
            v.len(),
            t.as_mut_ptr(),
            t.len(),
            o.vertex_count,
            o.triangle_count,
            &o.bounds,
            o.vertices.as_ptr(),
            o.vertices.len(),
            o.triangles.as_ptr(),
            o.triangles.len(),
        )
    }
}

pub fn flip(m: &mut Lent) -> u32 {
    let (v, t) = (&m.vertices, &mut m.triangles);
    unsafe {
        sizturga_bench_flip(
            &mut m.vertex_count,
            &mut m.triangle_count,
            &mut m.bounds,
            v.as_ptr(),
            v.len(),
            t.as_mut_ptr(),
            t.len(),
        )
    }
}

/// A rotation about an axis through the origin, by radians, then a translation.
pub fn transform(m: &mut Lent, axis: [f64; 3], angle: f64, by: [f64; 3]) -> u32 {
    let (v, t) = (&mut m.vertices, &mut m.triangles);
    unsafe {
        sizturga_bench_transform(
            &mut m.vertex_count,
            &mut m.triangle_count,
            &mut m.bounds,
            v.as_mut_ptr(),
            v.len(),
            t.as_mut_ptr(),
            t.len(),
            axis[0],
            axis[1],
            axis[2],
            angle,
            by[0],
            by[1],
            by[2],
        )
    }
}

/// Welds a soup, nine floats a triangle.
pub fn from_soup(soup: &[f64], m: &mut Lent) -> u32 {
    let (v, t, w) = (&mut m.vertices, &mut m.triangles, &mut m.work);
    unsafe {
        sizturga_bench_from_soup(
            soup.as_ptr(),
            soup.len(),
            v.as_mut_ptr(),
            v.len(),
            t.as_mut_ptr(),
            t.len(),
            w.as_mut_ptr(),
            w.len(),
            &mut m.vertex_count,
            &mut m.triangle_count,
            &mut m.bounds,
        )
    }
}
