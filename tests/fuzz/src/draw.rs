//! Random files that are sound as bytes: solids with their settings, mostly cheap ones, with numbers of every kind.
use oracle::rng::Rng;
use planner::LONGEST;
use planner::file::*;
use std::f64::consts::TAU;

/// Numbers of one file: how often they are such as a user does not type.
struct Numbers {
    odd_one_in: usize,
}

const ODD: [f64; 14] = [
    0.0,
    -0.0,
    f64::NAN,
    f64::INFINITY,
    f64::NEG_INFINITY,
    f64::MAX,
    -1e308,
    f64::MIN_POSITIVE,
    5e-324,
    1e-300,
    1000.0,
    1000.0000000000001,
    -1001.0,
    TAU,
];

impl Numbers {
    fn one(&self, rng: &mut Rng) -> f64 {
        if rng.one_in(self.odd_one_in) {
            return if rng.one_in(3) { f64::from_bits(rng.bits()) } else { rng.pick(&ODD) };
        }
        match rng.below(4) {
            0 => rng.between(0, 12) as f64 - 4.0,
            1 => rng.between(0, 6) as f64 / 2.0,
            2 => rng.unit(),
            _ => 100.0 * rng.unit() - 50.0,
        }
    }

    fn some(&self, rng: &mut Rng, n: usize) -> Vec<f64> {
        (0..n).map(|_| self.one(rng)).collect()
    }
}

/// A file of few solids, rarely of many.
pub fn file(rng: &mut Rng) -> File {
    let numbers = Numbers { odd_one_in: rng.pick(&[20, 200, 1000, 100_000]) };
    let n = match rng.below(100) {
        0 => 0,
        1..=60 => 1,
        61..=80 => 2,
        81..=98 => rng.between(3, 6),
        _ => rng.between(7, 40),
    };
    let mut file = File::new();
    if !rng.one_in(50) {
        file = file.options(rng.between(3, 8) as u16, rng.between(2, 5) as u16);
    }
    for _ in 0..n {
        file = settings(rng, &numbers, file);
        file = solid(rng, &numbers, file);
    }
    if rng.one_in(10) { settings(rng, &numbers, file) } else { file }
}

/// Up to the longest file and a little beyond: fields of one kind or of many, and a rest that is no field.
pub fn long(rng: &mut Rng) -> File {
    let numbers = Numbers { odd_one_in: 1_000_000 };
    let length = if rng.one_in(2) { rng.between(LONGEST - 4, LONGEST + 4) } else { rng.between(1000, 70_000) };
    let kind = rng.below(5);
    let mut file = File::new().options(3, 2);
    while file.0.len() < length {
        file = match kind {
            0 => file.field(MULTI_BOX, &[]),
            1 => file.byte(DEGREES, 1),
            2 => file.solid(BOX, &numbers.some(rng, 6)),
            3 => solid(rng, &numbers, file),
            _ => {
                let file = settings(rng, &numbers, file);
                if rng.one_in(8) { solid(rng, &numbers, file) } else { file }
            }
        };
    }
    if rng.one_in(2) {
        file.0.truncate(length);
    }
    file
}

/// The fields before a solid, in any order, some twice.
fn settings(rng: &mut Rng, numbers: &Numbers, mut file: File) -> File {
    while rng.one_in(2) {
        file = match rng.below(8) {
            0 => options(rng, file),
            1 => file.byte(DEFAULT_SYSTEM, rng.below(2) as u8),
            2 => file.byte(OWN_SYSTEM, rng.below(2) as u8),
            3 => file.byte(DEGREES, rng.below(2) as u8),
            _ => {
                let n = if rng.one_in(200) { rng.between(15, 18) } else { 1 };
                (0..n).fold(file, |file, _| operation(rng, numbers, file))
            }
        };
    }
    file
}

/// Small, at the limit or beyond it.
fn options(rng: &mut Rng, file: File) -> File {
    let mut count = || match rng.below(100) {
        0 => 1024,
        1 => 1025,
        2 => rng.bits() as u16,
        3..=8 => rng.between(30, 80) as u16,
        _ => rng.between(0, 9) as u16,
    };
    file.options(count(), count())
}

fn operation(rng: &mut Rng, numbers: &Numbers, file: File) -> File {
    const FLOATS: [usize; 8] = [3, 4, 1, 1, 1, 1, 3, 16];
    let kind = rng.below(8);
    file.operation(kind as u8 + 1, &numbers.some(rng, FLOATS[kind]))
}

/// A solid of any kind. Cheap ones are more frequent.
fn solid(rng: &mut Rng, numbers: &Numbers, file: File) -> File {
    let direction = |rng: &mut Rng| if rng.one_in(30) { rng.bits() as u8 } else { rng.below(3) as u8 };
    let directions = [direction(rng), direction(rng)];
    match rng.below(14) {
        0..=3 => file.solid(BOX, &numbers.some(rng, 6)),
        4 => {
            let n = items(rng, 256);
            file.solid(MULTI_BOX, &numbers.some(rng, 6 * n))
        }
        5..=6 => file.solid(SPHERE, &numbers.some(rng, 4)),
        7 => file.solid(SPHERICAL_SHELL, &numbers.some(rng, 5)),
        8 => file.solid(CYLINDER, &numbers.some(rng, 7)),
        9 => file.solid(CYLINDRICAL_SHELL, &numbers.some(rng, 8)),
        10 => {
            let n = items(rng, 512);
            file.directed(POLYGON, &directions[..1], &[numbers.some(rng, 1), corners(rng, numbers, n)].concat())
        }
        11 => {
            let n = items(rng, 512);
            file.directed(EXTRUDED, &directions[..1], &[numbers.some(rng, 2), corners(rng, numbers, n)].concat())
        }
        12 => {
            let n = items(rng, 512);
            let mut all = numbers.some(rng, 3);
            if rng.one_in(2) {
                all[2] = all[1] + TAU;
            }
            file.directed(ROTATED, &directions, &[all, corners(rng, numbers, n)].concat())
        }
        _ => {
            let n = items(rng, 256);
            file.solid(WIRE, &[numbers.some(rng, 1), numbers.some(rng, 3 * n)].concat())
        }
    }
}

/// Few items, rarely up to the limit and one beyond it.
fn items(rng: &mut Rng, most: usize) -> usize {
    match rng.below(500) {
        0 => rng.between(most - 1, most + 1),
        1..=4 => rng.between(10, 60),
        _ => rng.below(6),
    }
}

/// Corners of a star, or any.
fn corners(rng: &mut Rng, numbers: &Numbers, n: usize) -> Vec<f64> {
    if rng.one_in(3) {
        return numbers.some(rng, 2 * n);
    }
    let (x, y) = (numbers.one(rng), numbers.one(rng));
    let inner = rng.pick(&[0.4, 1.0]);
    let corner = |i: usize| {
        let (sine, cosine) = (TAU * i as f64 / n as f64).sin_cos();
        let r = if i.is_multiple_of(2) { 1.0 } else { inner };
        [x + r * cosine, y + r * sine]
    };
    (0..n).flat_map(corner).collect()
}

/// Random bytes. Some begin with a known tag and a short length.
pub fn noise(rng: &mut Rng) -> File {
    let length = match rng.below(400) {
        0 => rng.below(70_000),
        1..=40 => rng.below(500),
        _ => rng.below(24),
    };
    let mut bytes = vec![0; length];
    let mut at = 0;
    while at < length {
        bytes[at] = match rng.below(4) {
            0 => rng.bits() as u8,
            1 => 0,
            2 => rng.between(0x10, 0x19) as u8,
            _ => rng.between(1, 5) as u8,
        };
        at += rng.between(1, 3);
    }
    File(bytes)
}
