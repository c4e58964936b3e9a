//! The stack that calls of crates/c_solids take.
mod taken;

use sides::ours::{self, Lent, Solid};
use std::hint::black_box;
use taken::{on_a_large_stack, taken};

fn main() {
    on_a_large_stack(report);
}

fn report() {
    println!("call\tbytes of stack");
    for (name, drawings) in drawings() {
        let most = drawings.iter().map(|d| of_drawing(d)).max().unwrap_or(0);
        println!("{name}\t{most}");
    }
    let mut mesh = drawn(&Solid::Sphere([0.0; 3], 1.0), 64, 64);
    let mut room = Lent {
        vertices: vec![0.0; 6 * mesh.vertex_count],
        triangles: vec![0; 6 * mesh.triangle_count],
        ..mesh.clone()
    };
    room.vertices[..mesh.vertices.len()].copy_from_slice(&mesh.vertices);
    room.triangles[..mesh.triangles.len()].copy_from_slice(&mesh.triangles);
    println!("append\t{}", taken(|| _ = ours::append(&mut room, &mesh)));
    println!("flip\t{}", taken(|| _ = ours::flip(&mut mesh)));
    println!("transform\t{}", taken(|| _ = ours::transform(&mut mesh, [0.0, 0.0, 1.0], 0.5, [1.0, 2.0, 3.0])));
    println!("area\t{}", taken(|| _ = black_box(ours::area(&mesh))));
    println!("signed_volume\t{}", taken(|| _ = black_box(ours::signed_volume(&mesh))));
    println!("bounding_box\t{}", taken(|| _ = black_box(ours::bounding_box(&mesh))));
    let soup: Vec<f64> = (0..9000).map(f64::from).collect();
    let mut lent = Lent::new(3000, 1000);
    println!("from_soup\t{}", taken(|| assert_eq!(ours::from_soup(&soup, &mut lent), 0)));
}

/// A solid of a resolution.
type Drawing = (Solid, usize, usize);

/// Each solid at resolutions that choose other local arrays.
fn drawings() -> Vec<(&'static str, Vec<Drawing>)> {
    let at =
        |make: &dyn Fn() -> Solid| [(3, 2), (64, 64), (65, 65), (1024, 1024)].map(|(s, r)| (make(), s, r)).to_vec();
    let outline = |n: usize| (0..n).flat_map(|i| corner(i, n)).collect::<Vec<f64>>();
    let outlines = |make: &dyn Fn(Vec<f64>) -> Solid| [3, 64, 65, 512].map(|n| (make(outline(n)), 64, 2)).to_vec();
    vec![
        ("box", at(&|| Solid::Box([0.0; 3], [1.0, 2.0, 3.0]))),
        ("box, cylindrical", at(&|| Solid::Sector([1.0, 0.0, 0.0], [2.0, 6.0, 3.0]))),
        ("multi-box", at(&|| Solid::MultiBox(vec![0.0, 0.0, 0.0, 1.0, 2.0, 3.0, 4.0, 4.0, 4.0, 5.0, 5.0, 5.0]))),
        ("sphere", at(&|| Solid::Sphere([0.0; 3], 1.0))),
        ("spherical shell", at(&|| Solid::SphericalShell([0.0; 3], 1.0, 0.5))),
        ("cylinder", at(&|| Solid::Cylinder([0.0; 3], [0.0, 0.0, 1.0], 1.0))),
        ("cylindrical shell", at(&|| Solid::CylindricalShell([0.0; 3], [0.0, 0.0, 1.0], 1.0, 0.5))),
        ("polygon", outlines(&|c| Solid::Polygon(2, 1.0, c))),
        ("extruded outline", outlines(&|c| Solid::Extruded(2, 1.0, 2.0, c))),
        ("rotated outline", outlines(&|c| Solid::Rotated(2, 0.0, 0, 0.0, 3.0, c))),
        ("wire", at(&|| Solid::Wire(0.25, vec![0.0, 0.0, 0.0, 0.0, 0.0, 1.0, 0.0, 1.0, 1.0]))),
    ]
}

/// Corner i of n, on a circle that does not touch the axes.
fn corner(i: usize, n: usize) -> [f64; 2] {
    let a = std::f64::consts::TAU * i as f64 / n as f64;
    [3.0 + a.cos(), 3.0 + a.sin()]
}

fn of_drawing((solid, segments, rings): &Drawing) -> usize {
    let mut lent = places();
    taken(|| assert_eq!(ours::tessellate(solid, *segments, *rings, &mut lent), 0))
}

/// The mesh of a solid, in slices without further places.
fn drawn(solid: &Solid, segments: usize, rings: usize) -> Lent {
    let mut lent = places();
    assert_eq!(ours::tessellate(solid, segments, rings, &mut lent), 0);
    lent.vertices.truncate(3 * lent.vertex_count);
    lent.triangles.truncate(3 * lent.triangle_count);
    lent
}

/// Enough places for every drawing here.
fn places() -> Lent {
    Lent::new(1 << 22, 1 << 23)
}
