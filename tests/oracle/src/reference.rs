//! A case as the reference takes it.
use crate::case::*;
use csx::primitives::{
    BoxShape, Cylinder, CylindricalShell, LinPoly, MultiBox, Polygon, Primitive, RotPoly, Shape, Sphere,
    SphericalShell, Wire,
};
use csx::tessellate::{TessellationOptions, TriMesh, tessellate};
use csx::{CoordSystem, Scalar, Transform, TransformOp, Vec3};

fn system(cylindrical: bool) -> CoordSystem {
    if cylindrical { CoordSystem::Cylindrical } else { CoordSystem::Cartesian }
}

fn shape(case: &Case) -> Shape {
    let n = &case.numbers;
    let at = |i: usize| [n[i], n[i + 1], n[i + 2]];
    let of = |c: &[f64], i: usize| [c[i], c[i + 1], c[i + 2]];
    let (norm_dir, rot_axis_dir) = (case.norm_dir as usize, case.rot_axis_dir as usize);
    match case.shape {
        BOX => BoxShape::new(at(0), at(3)).into(),
        MULTI_BOX => MultiBox::new(case.list.chunks_exact(6).map(|c| (of(c, 0), of(c, 3)))).into(),
        SPHERE => Sphere::new(at(0), n[3]).into(),
        SPHERICAL_SHELL => SphericalShell::new(at(0), n[3], n[4]).into(),
        CYLINDER => Cylinder::new(at(0), at(3), n[6]).into(),
        CYLINDRICAL_SHELL => CylindricalShell::new(at(0), at(3), n[6], n[7]).into(),
        POLYGON => Polygon::new(norm_dir, n[0], pairs(&case.list)).into(),
        LIN_POLY => LinPoly::new(norm_dir, n[0], n[1], pairs(&case.list)).into(),
        ROT_POLY => RotPoly {
            norm_dir,
            rot_axis_dir,
            elevation: n[0].into(),
            start_angle: n[1].into(),
            stop_angle: n[2].into(),
            vertices: pairs(&case.list).into(),
        }
        .into(),
        WIRE => Wire::new(case.list.chunks_exact(3).map(|c| of(c, 0)), n[0]).into(),
        other => panic!("no shape {other}"),
    }
}

/// The operations, at most 16.
pub fn transform(case: &Case) -> Transform {
    let mut transform = Transform::new();
    transform.set_angles_in_degrees(case.degrees == 1);
    for op in &case.ops {
        let n = op.numbers.map(Scalar::new);
        let [x, y, z, w, ..] = n.clone();
        transform.push(match op.kind {
            1 => TransformOp::Translate([x, y, z]),
            2 => TransformOp::RotateOrigin([x, y, z], w),
            3 => TransformOp::RotateX(x),
            4 => TransformOp::RotateY(x),
            5 => TransformOp::RotateZ(x),
            6 => TransformOp::Scale(x),
            7 => TransformOp::Scale3([x, y, z]),
            8 => TransformOp::Matrix(Box::new(n)),
            other => panic!("no operation {other}"),
        });
    }
    transform
}

pub fn options(case: &Case) -> TessellationOptions {
    TessellationOptions::default().with_segments(case.segments as usize).with_sphere_rings(case.sphere_rings as usize)
}

/// The mesh before its operations. Its vertices are the soup's points + 0.0, all of them.
pub fn untransformed(case: &Case) -> TriMesh {
    tessellated(case, Transform::new())
}

/// The mesh.
pub fn transformed(case: &Case) -> TriMesh {
    tessellated(case, transform(case))
}

/// A list of floats as points.
pub fn points(list: &[f64]) -> Vec<Vec3> {
    list.chunks_exact(3).map(|c| Vec3::new(c[0], c[1], c[2])).collect()
}

/// `bounding_box` of a mesh, a zero as +0.0.
pub fn bounds(mesh: &TriMesh) -> Bounds {
    let found = mesh.bounding_box();
    std::array::from_fn(|i| if i < 3 { found.min[i] } else { found.max[i - 3] } + 0.0)
}

/// `bounding_box` of a mesh of these vertices.
pub fn bounds_of(list: &[f64]) -> Bounds {
    bounds(&TriMesh { vertices: points(list), triangles: Vec::new() })
}

fn tessellated(case: &Case, transform: Transform) -> TriMesh {
    let mut primitive = Primitive::new(shape(case)).with_transform(transform);
    primitive.coord_system = match case.own {
        0 => None,
        own => Some(system(own == 2)),
    };
    tessellate(&primitive, system(case.default == 1), &options(case))
}
