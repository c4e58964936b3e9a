//! The patches change last bits only: the patched reference beside the unpatched one, and its sine beside the machine's.
use csx::sine::sin_cos;

/// The meshes of some solids, through one of the two builds.
macro_rules! meshes {
    ($csx:ident) => {{
        use $csx::CoordSystem::{Cartesian, Cylindrical};
        use $csx::primitives::*;
        use $csx::tessellate::{TessellationOptions, tessellate};
        let options = TessellationOptions::default();
        let outline = vec![(1.0, 0.0), (3.0, 0.5), (2.0, 1.0), (2.5, 2.0), (1.0, 2.0)];
        let mut transform = $csx::Transform::new();
        transform.rotate_axis(0, 0.5).scale(-2.0).rotate($csx::Vec3::new(1.0, 2.0, 3.0), 40.0);
        let part = RotPoly { stop_angle: 2.0.into(), ..RotPoly::new(1, 2, outline.clone()) };
        let solids: Vec<Primitive> = vec![
            BoxShape::new([1.0, 0.25, 0.0], [2.0, 3.5, 1.0]).into(),
            Sphere::new([0.5, 1.0, 2.0], 1.5).into(),
            CylindricalShell::new([0.0, 0.0, 0.0], [1.0, 2.0, 3.0], 2.0, 1.0).into(),
            LinPoly::new(0, 1.0, 2.0, outline.clone()).into(),
            RotPoly::new(1, 2, outline).into(),
            part.into(),
            Wire::new([[0.0, 0.0, 0.0], [1.0, 2.0, 0.0], [3.0, 1.0, 1.0]], 0.25).into(),
        ];
        let mut out = Vec::new();
        for solid in solids {
            for system in [Cartesian, Cylindrical] {
                let mesh = tessellate(&solid.clone().with_transform(transform.clone()), system, &options);
                let measures = [mesh.signed_volume(), mesh.area()];
                out.push((mesh.vertices.iter().map(|v| v.0).collect::<Vec<_>>(), mesh.triangles, measures));
            }
        }
        out
    }};
}

#[test]
fn patched_and_unpatched_meshes_are_near() {
    let near = |x: &f64, y: &f64| (x - y).abs() <= 1e-12 * (1.0 + x.abs());
    for ((vertices, triangles, measures), (v, t, m)) in meshes!(csx).iter().zip(&meshes!(csx_plain)) {
        assert_eq!(triangles, t);
        assert!(
            vertices.len() == v.len() && vertices.as_flattened().iter().zip(v.as_flattened()).all(|(x, y)| near(x, y))
        );
        assert!(measures.iter().zip(m).all(|(x, y)| near(x, y)));
    }
}

#[test]
fn sine_and_cosine_are_near() {
    for i in -1_000_000..=1_000_000 {
        let x = i as f64 * 0.001_003;
        let (sin, cos) = sin_cos(x);
        assert!((sin - x.sin()).abs() < 1e-15 && (cos - x.cos()).abs() < 1e-15, "{x}");
    }
}
