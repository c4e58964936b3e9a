//! The stack that the planner's call takes, for files of one solid each, without operations and with sixteen. Status 1 where it is more than
//! include/sizturga.h says.
#[path = "../taken.rs"]
mod taken;

use planner::file::*;
use planner::{fixture, output_most};
use std::f64::consts::TAU;
use taken::{on_a_large_stack, taken};

const HEADER: &str = include_str!("../../../../include/sizturga.h");

fn main() {
    on_a_large_stack(report);
}

fn report() {
    println!("file of the planner's call\tbytes of stack");
    let mut most = 0;
    for (name, files) in files() {
        let figure = files.iter().map(|file| of_file(&file.0)).max().unwrap_or(0);
        println!("{name}\t{figure}");
        most = most.max(figure);
    }
    println!("the planner's call, at most\t{most}");
    let told = told();
    println!("include/sizturga.h says\t{told}");
    if most > told {
        std::process::exit(1);
    }
}

/// SIZTURGA_STACK_BYTES of the header.
fn told() -> usize {
    let mut lines = HEADER.lines().filter_map(|line| line.strip_prefix("#define SIZTURGA_STACK_BYTES "));
    lines.next().and_then(|number| number.parse().ok()).expect("the header's figure")
}

/// Drawn, or refused for its size after all points were made.
fn of_file(file: &[u8]) -> usize {
    let mut output = vec![0; output_most(file.len())];
    let mut answer = 0;
    let figure = taken(|| answer = fixture(file, &mut output));
    assert!([0, 7, 9, 11].contains(&answer), "answer {answer}");
    figure
}

/// A solid's field behind other fields.
type Add<'a> = &'a dyn Fn(File) -> File;

/// Resolutions that choose other local arrays, each without operations and with sixteen of every kind.
fn at(resolutions: &[(u16, u16)], add: Add) -> Vec<File> {
    let start = |(segments, rings): &(u16, u16)| File::new().options(*segments, *rings);
    let plain = resolutions.iter().map(|r| add(start(r)));
    let moved = resolutions.iter().map(|r| add(operations(start(r))));
    plain.chain(moved).collect()
}

fn operations(mut file: File) -> File {
    let diagonal: Vec<f64> = (0..16).map(|i| if i % 5 == 0 { 1.0 } else { 0.0 }).collect();
    file = file.byte(DEGREES, 1);
    for _ in 0..2 {
        file = file.operation(1, &[1.0, 2.0, 3.0]).operation(2, &[1.0, 2.0, 3.0, 30.0]);
        file = (3..=5).fold(file, |file, axis| file.operation(axis, &[45.0]));
        file = file.operation(6, &[2.0]).operation(7, &[1.0, -1.0, 1.0]).operation(8, &diagonal);
    }
    file
}

fn files() -> Vec<(&'static str, Vec<File>)> {
    let round = |add: Add| at(&[(3, 2), (64, 64), (65, 65), (1024, 1024)], add);
    let solid = |tag: u8, numbers: Vec<f64>| round(&|file| file.solid(tag, &numbers));
    let outlines = |tag: u8, directions: &[u8], numbers: &[f64]| -> Vec<File> {
        let of = |n: usize| at(&[(64, 2)], &|file| file.directed(tag, directions, &[numbers, &outline(n)].concat()));
        [3, 64, 65, 512].into_iter().flat_map(of).collect()
    };
    let (unit, axis) = ([0.0, 0.0, 0.0, 1.0, 2.0, 3.0], [0.0, 0.0, 0.0, 0.0, 0.0, 1.0]);
    let wire = [0.25, 0.0, 0.0, 0.0, 0.0, 0.0, 1.0, 0.0, 1.0, 1.0];
    let long_wire: Vec<f64> = std::iter::once(0.25).chain((0..768).map(f64::from)).collect();
    vec![
        ("box", solid(BOX, unit.into())),
        ("box, cylindrical", round(&|file| file.byte(OWN_SYSTEM, 1).solid(BOX, &[1.0, 0.0, 0.0, 2.0, 6.0, 3.0]))),
        ("multi-box", solid(MULTI_BOX, unit.repeat(2))),
        ("multi-box of 256 boxes", at(&[(3, 2)], &|file| file.solid(MULTI_BOX, &unit.repeat(256)))),
        ("sphere", solid(SPHERE, vec![0.0, 0.0, 0.0, 1.0])),
        ("spherical shell", solid(SPHERICAL_SHELL, vec![0.0, 0.0, 0.0, 1.0, 0.5])),
        ("cylinder", solid(CYLINDER, [&axis[..], &[1.0]].concat())),
        ("cylindrical shell", solid(CYLINDRICAL_SHELL, [&axis[..], &[1.0, 0.5]].concat())),
        ("polygon", outlines(POLYGON, &[2], &[1.0])),
        ("extruded outline", outlines(EXTRUDED, &[2], &[1.0, 2.0])),
        ("rotated outline", outlines(ROTATED, &[2, 0], &[0.0, 0.0, 3.0])),
        ("wire", solid(WIRE, wire.into())),
        ("wire of 256 points", at(&[(3, 2)], &|file| file.solid(WIRE, &long_wire))),
        ("no file, and one that is refused", vec![File::new(), File::new().field(BOX, &[])]),
    ]
}

/// Corners on a circle that does not touch the axes.
fn outline(n: usize) -> Vec<f64> {
    let corner = |i: usize| {
        let (sine, cosine) = (TAU * i as f64 / n as f64).sin_cos();
        [3.0 + cosine, 3.0 + sine]
    };
    (0..n).flat_map(corner).collect()
}
