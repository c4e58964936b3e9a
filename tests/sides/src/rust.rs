//! The same solid as a primitive of the unpatched Rust.
use crate::ours::Solid;
use csx_plain::CoordSystem;
use csx_plain::primitives::{
    BoxShape, Cylinder, CylindricalShell, LinPoly, MultiBox, Polygon, Primitive, RotPoly, Sphere, SphericalShell, Wire,
};
use csx_plain::tessellate::{TessellationOptions, TriMesh};

/// A list of floats as points.
pub fn points(list: &[f64]) -> impl Iterator<Item = [f64; 3]> + '_ {
    list.chunks_exact(3).map(|c| [c[0], c[1], c[2]])
}

/// A list of floats as corners.
pub fn corners(list: &[f64]) -> Vec<(f64, f64)> {
    list.chunks_exact(2).map(|c| (c[0], c[1])).collect()
}

pub fn primitive(solid: &Solid) -> Primitive {
    match solid {
        Solid::Box(p, q) | Solid::Sector(p, q) => BoxShape::new(*p, *q).into(),
        Solid::MultiBox(c) => MultiBox::new(points(c).step_by(2).zip(points(c).skip(1).step_by(2))).into(),
        Solid::Sphere(p, r) => Sphere::new(*p, *r).into(),
        Solid::SphericalShell(p, r, w) => SphericalShell::new(*p, *r, *w).into(),
        Solid::Cylinder(p, q, r) => Cylinder::new(*p, *q, *r).into(),
        Solid::CylindricalShell(p, q, r, w) => CylindricalShell::new(*p, *q, *r, *w).into(),
        Solid::Polygon(d, e, c) => Polygon::new(*d as usize, *e, corners(c)).into(),
        Solid::Extruded(d, e, l, c) => LinPoly::new(*d as usize, *e, *l, corners(c)).into(),
        Solid::Rotated(d, e, a, p, q, c) => rotated(*d, *e, *a, *p, *q, c).into(),
        Solid::Wire(r, c) => Wire::new(points(c), *r).into(),
    }
}

fn rotated(norm_dir: u8, elevation: f64, axis: u8, start: f64, stop: f64, list: &[f64]) -> RotPoly {
    RotPoly {
        elevation: elevation.into(),
        start_angle: start.into(),
        stop_angle: stop.into(),
        ..RotPoly::new(norm_dir as usize, axis as usize, corners(list))
    }
}

/// The system in which a solid's numbers are taken.
pub fn system(solid: &Solid) -> CoordSystem {
    if matches!(solid, Solid::Sector(..)) { CoordSystem::Cylindrical } else { CoordSystem::Cartesian }
}

pub fn options(segments: usize, rings: usize) -> TessellationOptions {
    TessellationOptions::default().with_segments(segments).with_sphere_rings(rings)
}

pub fn tessellate(primitive: &Primitive, system: CoordSystem, options: &TessellationOptions) -> TriMesh {
    csx_plain::tessellate::tessellate(primitive, system, options)
}
