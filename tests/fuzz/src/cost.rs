//! What a file asks for, and how long its call may take.
use oracle::case::*;
use oracle::fixture;

/// At least the work of a call.
#[derive(Clone, Copy, Debug, Default)]
pub struct Cost {
    pub solids: usize,
    /// Triangles before welding.
    pub triangles: usize,
    /// Tests of a corner against an ear.
    pub tests: usize,
}

/// The cost of a file by its settings; nothing where a field is refused.
pub fn of(file: &[u8]) -> Cost {
    let mut cost = Cost::default();
    for solid in fixture::solids(file).unwrap_or_default() {
        cost.solids += 1;
        if solid.segments <= 1024 && solid.sphere_rings <= 1024 {
            add(&mut cost, &solid);
        }
    }
    cost
}

fn add(cost: &mut Cost, solid: &Case) {
    let (around, rings) = (solid.segments.max(3) as usize, solid.sphere_rings.max(2) as usize);
    let items = solid.items().map_or(1, |(floats, most)| (solid.list.len() / floats).min(most + 1));
    let (tube, sphere) = (8 * around + 12, 2 * around * rings);
    let outline = matches!(solid.shape, POLYGON | LIN_POLY | ROT_POLY);
    cost.tests += if outline { items * items * items / 3 } else { 0 };
    cost.triangles += match solid.shape {
        SPHERE => sphere,
        SPHERICAL_SHELL => 2 * sphere,
        POLYGON | LIN_POLY => 4 * items,
        ROT_POLY => 2 * items * (around + 2),
        WIRE => items * (tube + sphere),
        _ => items * tube,
    };
}

/// A call may take so many nanoseconds of processor time. The README's figures are 13 to 330 a triangle; a solid clears 57 KB.
pub fn bound(cost: &Cost, file_length: usize, output_length: usize) -> f64 {
    let by = |n: usize, ns: f64| n as f64 * ns;
    let drawn = by(cost.solids, 50_000.0) + by(cost.triangles, 1_000.0) + by(cost.tests, 20.0);
    5e6 + drawn + by(file_length, 100.0) + by(output_length, 10.0)
}
