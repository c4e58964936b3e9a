//! What a file costs to read: no case is to take long or much memory.
use crate::case::*;
use crate::fixture;
use crate::refusals;

/// At least the triangles that the Rust makes of a solid before it welds them; 0 where it is refused before.
pub fn triangles(case: &Case) -> usize {
    if refusals::before_tessellation(case) != 0 {
        return 0;
    }
    let (around, rings) = (case.segments.max(3) as usize, case.sphere_rings.max(2) as usize);
    let items = case.items().map_or(1, |(floats, _)| case.list.len() / floats);
    let (round, sphere) = (8 * around + 4, 2 * around * rings);
    // A system of its own is not that of a multi-box; here it does no harm.
    let cylindrical = case.default == 1 || case.own == 2;
    match case.shape {
        BOX | MULTI_BOX if !cylindrical => items * 12,
        BOX | MULTI_BOX | CYLINDER | CYLINDRICAL_SHELL => items * round,
        SPHERE => sphere,
        SPHERICAL_SHELL => 2 * sphere,
        POLYGON | LIN_POLY => 4 * items,
        ROT_POLY => 2 * items * (around + 1),
        _ => items * (round + sphere),
    }
}

/// Whether a file makes no more triangles than these.
pub fn within(file: &[u8], most: usize) -> bool {
    fixture::solids(file).map_or(0, |solids| solids.iter().map(triangles).sum::<usize>()) <= most
}
