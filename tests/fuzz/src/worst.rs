//! The costliest files that are known, each within its bound. None is compared: the oracle would take long.
use crate::areas::Place;
use crate::calls::{Call, Calls};
use crate::cost;
use planner::file::*;
use planner::{LONGEST, output_most};
use std::f64::consts::TAU;

pub fn run() -> Result<(), String> {
    println!("file\tbytes\tsolids\tsoup triangles\ttests of corners\tanswer\tms\tshare of the bound");
    for (name, file) in files() {
        let file = file.0;
        let cost = cost::of(&file);
        let mut calls = Calls::new();
        let call =
            Call { output_length: output_most(file.len()), places: [Place::Last, Place::Last], cost, compare: false };
        let (answer, _) = calls.make(&file, &call).map_err(|text| format!("{name}: {text}"))?;
        let (ms, share) = (calls.slowest.figure / 1e6, calls.nearest.figure);
        let (solids, triangles, tests) = (cost.solids, cost.triangles, cost.tests);
        println!("{name}\t{}\t{solids}\t{triangles}\t{tests}\t{answer}\t{ms:.1}\t{share:.4}", file.len());
    }
    Ok(())
}

/// As many of a solid as a file holds.
fn full(mut file: File, add: impl Fn(File) -> File) -> File {
    loop {
        let longer = add(file.clone());
        if longer.0.len() > LONGEST {
            return file;
        }
        file = longer;
    }
}

fn files() -> Vec<(&'static str, File)> {
    let polygon =
        |corners: Vec<f64>| move |file: File| file.directed(POLYGON, &[2], &[vec![1.0], corners.clone()].concat());
    let wire: Vec<f64> = (0..8).flat_map(|i| [i as f64, (i % 2) as f64, 0.0]).collect();
    let tiny = [1.0, 1.0, 1.0, 1e-320, 1e-322];
    vec![
        ("boxes", full(File::new(), |file| file.solid(BOX, &[0.0, 0.0, 0.0, 1.0, 2.0, 3.0]))),
        ("solids without a vertex", full(File::new(), |file| file.field(MULTI_BOX, &[]))),
        ("settings, and a box", full(File::new().solid(BOX, &[0.0; 6]), |file| file.byte(DEGREES, 1))),
        (
            "spheres of 1,024 vertices",
            full(File::new().options(73, 15), |file| file.solid(SPHERE, &[0.0, 0.0, 0.0, 1.0])),
        ),
        ("outlines of 511 corners, combs", full(File::new(), polygon(comb(511)))),
        ("outlines of 511 corners, spirals", full(File::new(), polygon(spiral(511)))),
        ("outlines of 511 corners, stars", full(File::new(), polygon(star(511)))),
        (
            "a wire of 8 points, 1,024 by 1,024",
            File::new().options(1024, 1024).solid(WIRE, &[vec![0.1], wire].concat()),
        ),
        (
            "eight shells that weld to a vertex, 1,024 by 1,024",
            (0..8).fold(File::new().options(1024, 1024), |file, _| file.solid(SPHERICAL_SHELL, &tiny)),
        ),
    ]
}

fn polar(angle: f64, r: f64) -> [f64; 2] {
    [3.0 + r * angle.cos(), 3.0 + r * angle.sin()]
}

fn star(n: usize) -> Vec<f64> {
    (0..n).flat_map(|i| polar(TAU * i as f64 / n as f64, 2.0 - (i % 2) as f64)).collect()
}

/// Teeth upwards from a line.
fn comb(n: usize) -> Vec<f64> {
    (0..n).flat_map(|i| [i as f64, if i + 1 == n { -1.0 } else { 10.0 * (i % 2) as f64 }]).collect()
}

/// A band that winds inwards and back.
fn spiral(n: usize) -> Vec<f64> {
    let half = n / 2;
    let at = |i: usize, r: f64| polar(8.0 * TAU * i as f64 / half as f64, r * (1.0 - 0.9 * i as f64 / half as f64));
    let (outwards, back) = ((0..half).map(|i| at(i, 2.0)), (half..n).map(|i| at(n - 1 - i, 1.9)));
    outwards.chain(back).flatten().collect()
}
