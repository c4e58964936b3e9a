//! Drawings by number: the same seed and number make the same drawing.
use crate::rng::Rng;
use crate::{outlines, solids, soup_count, soups};
use sides::ours::Solid;

/// What is drawn. A soup has nine floats a triangle.
#[derive(Debug)]
pub enum Input {
    Solid { solid: Solid, segments: usize, rings: usize },
    Soup(Vec<f64>),
}

pub struct Drawing {
    pub kind: &'static str,
    pub input: Input,
    /// How it was made, where its numbers are too many to print.
    pub note: String,
}

type Draw = fn(&mut Rng) -> (Input, String);

/// What a row of the report is held to.
#[derive(Clone, Copy, PartialEq)]
pub enum Bars {
    /// Never slower than the Rust, and never above ten medians a soup triangle.
    Both,
    /// Never slower than the Rust. How long clipping takes depends on the order of the corners, so outlines by themselves have no median.
    Rust,
    /// None: it is told how long a call takes.
    None,
}

/// A row of the report.
pub struct Kind {
    pub name: &'static str,
    pub bars: Bars,
    draw: Draw,
}

const fn kind(name: &'static str, bars: Bars, draw: Draw) -> Kind {
    Kind { name, bars, draw }
}

pub const KINDS: [Kind; 15] = [
    kind("box", Bars::Both, solids::a_box),
    kind("box, cylindrical", Bars::Both, solids::sector),
    kind("multi-box", Bars::Both, solids::multi_box),
    kind("sphere", Bars::Both, solids::sphere),
    kind("spherical shell", Bars::Both, solids::spherical_shell),
    kind("cylinder", Bars::Both, solids::cylinder),
    kind("cylindrical shell", Bars::Both, solids::cylindrical_shell),
    kind("polygon", Bars::Both, solids::polygon),
    kind("extruded", Bars::Both, solids::extruded),
    kind("rotated", Bars::Both, solids::rotated),
    kind("wire", Bars::Both, solids::wire),
    kind("soup", Bars::Both, soups::soup),
    kind("soup, equal bits", Bars::Both, soups::patterned),
    kind("outline of 512 corners", Bars::Rust, outlines::large),
    kind("outline of 3 to 40 corners", Bars::None, outlines::small),
];

/// The row of small outlines, drawn as such or rounded to so few corners.
const SMALL: usize = 14;
const SMALL_CORNERS: usize = 40;

/// The drawings of all kinds that have no soup triangle, as a sphere of radius 0: the row after those of the kinds.
pub const EMPTY: Kind = kind("no soup triangle", Bars::None, outlines::small);

/// The row of a drawing.
pub fn row(number: usize, input: &Input, triangles: usize) -> usize {
    if triangles == 0 {
        return KINDS.len();
    }
    if soup_count::has_few_corners(input, SMALL_CORNERS) { SMALL } else { number % KINDS.len() }
}

impl Drawing {
    pub fn random(seed: u64, number: usize) -> Drawing {
        let kind = &KINDS[number % KINDS.len()];
        let mut rng = Rng::new(Rng::new(seed ^ (number as u64) << 32).bits());
        let (input, note) = (kind.draw)(&mut rng);
        Drawing { kind: kind.name, input, note }
    }

    /// One line: the numbers of a solid, or how it was made.
    pub fn text(&self) -> String {
        match &self.input {
            Input::Soup(list) => format!("{} of {} triangles: {}", self.kind, list.len() / 9, self.note),
            Input::Solid { solid, segments, rings } if self.note.is_empty() => {
                format!("{solid:?}, {segments} x {rings}")
            }
            Input::Solid { segments, rings, .. } => format!("{}: {}, {segments} x {rings}", self.kind, self.note),
        }
    }
}

/// Points that differ in their last bits only: with a bucket made of few bits they take hundreds of times as long as others.
pub fn named() -> Vec<Drawing> {
    let sphere = |center: [f64; 3], radius: f64, segments, rings| Drawing {
        kind: "sphere",
        input: Input::Solid { solid: Solid::Sphere(center, radius), segments, rings },
        note: String::new(),
    };
    let (odd, round) = ([123.456, 234.567, 345.678], [128.0, 256.0, 512.0]);
    let mut all = Vec::new();
    for radius in [1.0, 1e-9, 1e-10, 1e-11] {
        all.push(sphere(odd, radius, 256, 256));
        all.push(sphere(round, radius, 256, 256));
    }
    all.push(sphere([5e-71; 3], 1e-84, 1000, 300));
    let mut rng = Rng::new(17);
    let points = (0..768).map(|i| odd[i % 3] + 1e-9 * rng.unit()).collect();
    all.push(Drawing {
        kind: "wire",
        input: Input::Solid { solid: Solid::Wire(1e-9, points), segments: 32, rings: 16 },
        note: "256 points within 1e-9 of (123.456, 234.567, 345.678), radius 1e-9".into(),
    });
    all
}
