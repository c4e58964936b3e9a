//! The outlines, the wire's points and the soup. Both sides get the same floats.
use csx_plain::Vec3;
use std::f64::consts::TAU;

/// A star around (0, 0): n corners at equal angles, by turns 2 and 1 away.
pub fn star(n: usize) -> Vec<f64> {
    (0..n).flat_map(|i| at(TAU * i as f64 / n as f64, 2.0 - (i % 2) as f64)).collect()
}

/// n corners at equal angles on the circle of radius 1 around (3, 3): away from either axis.
pub fn ring(n: usize) -> Vec<f64> {
    (0..n).flat_map(|i| at(TAU * i as f64 / n as f64, 1.0).map(|c| c + 3.0)).collect()
}

/// n points of a screw line of radius 1 around the z axis, 0.2 radians and 0.1 upwards a step.
pub fn screw(n: usize) -> Vec<f64> {
    (0..n).map(|i| i as f64).flat_map(|i| [at(0.2 * i, 1.0)[0], at(0.2 * i, 1.0)[1], 0.1 * i]).collect()
}

fn at(angle: f64, radius: f64) -> [f64; 2] {
    [radius * angle.cos(), radius * angle.sin()]
}

/// The soup of a grid of nu × nv squares, two triangles each, over a surface whose heights differ.
pub fn grid(nu: usize, nv: usize) -> Vec<[Vec3; 3]> {
    let point = |i: usize, j: usize| {
        let (x, y) = (i as f64 / nu as f64, j as f64 / nv as f64);
        Vec3::new(x, y, x * y)
    };
    let square = |i, j| {
        let (a, b, c, d) = (point(i, j), point(i + 1, j), point(i + 1, j + 1), point(i, j + 1));
        [[a, b, c], [a, c, d]]
    };
    (0..nu).flat_map(|i| (0..nv).flat_map(move |j| square(i, j))).collect()
}
