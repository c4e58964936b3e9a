//! Stub: inside tests and boxes of shapes are not called.
use crate::math::{BoundingBox, Vec3};

pub const REL_TOL: f64 = 0.0;

pub fn tol(_: f64, _: f64) -> f64 {
    unreachable!()
}

pub fn in_range(_: f64, _: f64, _: f64) -> bool {
    unreachable!()
}

pub fn angle_ok(_: f64, _: f64, _: f64) -> bool {
    unreachable!()
}

pub fn point_in_polygon(_: (f64, f64), _: &[(f64, f64)]) -> bool {
    unreachable!()
}

pub fn sector_bbox(_: (f64, f64), _: (f64, f64), _: (f64, f64)) -> BoundingBox {
    unreachable!()
}

pub fn dist_point_segment(_: Vec3, _: Vec3, _: Vec3) -> f64 {
    unreachable!()
}

pub fn cartesian_bbox_to_cylindrical(_: &BoundingBox) -> BoundingBox {
    unreachable!()
}
