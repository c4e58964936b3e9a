//! Calls of tessellate.
use super::floats::{self, Style};
use super::{operations, outlines, places};
use crate::case::*;
use crate::rng::Rng;

/// A call of tessellate with slices lent to it.
pub fn solid(rng: &mut Rng) -> Case {
    let mut case = shaped(rng);
    operations::operations(rng, &mut case);
    let counts = places::counts(&case);
    places::lend(rng, &mut case, counts);
    case
}

/// A shape with its options and systems; nothing lent and no operations yet.
pub fn shaped(rng: &mut Rng) -> Case {
    let mut case = Case {
        what: TESSELLATE,
        shape: rng.below(10) as u8,
        own: rng.below(3) as u8,
        default: rng.below(2) as u8,
        norm_dir: direction(rng),
        rot_axis_dir: direction(rng),
        ..Case::default()
    };
    let style = floats::style(rng);
    match case.shape {
        BOX => case.numbers[..6].copy_from_slice(&bounds(rng, style)),
        MULTI_BOX => {
            let n = count(rng, 256, 5);
            case.list = (0..n).flat_map(|_| bounds(rng, style)).collect();
        }
        SPHERE | SPHERICAL_SHELL => {
            draw(rng, style, &mut case.numbers[..3]);
            sizes(rng, style, &mut case, 3);
        }
        CYLINDER | CYLINDRICAL_SHELL => {
            axis(rng, style, &mut case.numbers[..6]);
            sizes(rng, style, &mut case, 6);
        }
        POLYGON | LIN_POLY => {
            case.list = outlines::outline(rng);
            draw(rng, style, &mut case.numbers[..2]);
            case.numbers[NUMBERS[case.shape as usize]..].fill(0.0);
        }
        ROT_POLY => rotated(rng, style, &mut case),
        _ => {
            let n = count(rng, 256, 6);
            case.list = wire(rng, style, n);
            case.numbers[0] = floats::size(rng, style);
        }
    }
    angles(rng, &mut case);
    options(rng, &mut case);
    disturb(rng, &mut case);
    case
}

fn direction(rng: &mut Rng) -> u8 {
    if rng.one_in(12) { rng.pick(&[3, 4, 255]) } else { rng.below(3) as u8 }
}

fn draw(rng: &mut Rng, style: Style, to: &mut [f64]) {
    to.fill_with(|| floats::number(rng, style));
}

/// Mostly up to `usual`, now and then as many as are accepted, or one more.
fn count(rng: &mut Rng, most: usize, usual: usize) -> usize {
    match rng.below(100) {
        0 => most,
        1 => most + 1,
        2 => rng.between(usual, most),
        _ => rng.between(0, usual),
    }
}

/// Two corners of a box, now and then flat on an axis.
fn bounds(rng: &mut Rng, style: Style) -> [f64; 6] {
    let mut b = [0.0; 6];
    draw(rng, style, &mut b);
    for k in 0..3 {
        if rng.one_in(10) {
            b[k + 3] = if rng.one_in(3) { floats::near(rng, b[k]) } else { b[k] };
        }
        if b[k] == 0.0 && rng.one_in(3) {
            b[k] = -b[k];
        }
    }
    if rng.one_in(40) {
        let k = rng.below(3);
        (b[k], b[k + 3]) = (-1e308, 1e308);
    }
    b
}

/// Two ends, now and then equal, along an axis, or near to each other.
fn axis(rng: &mut Rng, style: Style, to: &mut [f64]) {
    draw(rng, style, to);
    match rng.below(10) {
        0 => to.copy_within(0..3, 3),
        1..=3 => {
            to.copy_within(0..3, 3);
            let k = rng.below(3);
            to[3 + k] = floats::number(rng, style);
        }
        4 => (0..3).for_each(|k| to[3 + k] = floats::near(rng, to[k])),
        _ => (),
    }
}

/// The radius and the width.
fn sizes(rng: &mut Rng, style: Style, case: &mut Case, at: usize) {
    let radius = floats::size(rng, style);
    case.numbers[at] = radius;
    if NUMBERS[case.shape as usize] == at + 2 {
        case.numbers[at + 1] = match rng.below(8) {
            0 => rng.pick(&[0.0, -0.0]),
            1 => 2.0 * radius,
            2 => floats::near(rng, 2.0 * radius),
            3 => radius,
            4 => -radius,
            _ => floats::size(rng, style),
        };
    }
}

fn rotated(rng: &mut Rng, style: Style, case: &mut Case) {
    case.list = outlines::outline(rng);
    if rng.one_in(2) {
        case.list.iter_mut().for_each(|x| *x = x.abs());
    }
    if case.norm_dir == case.rot_axis_dir && !rng.one_in(4) {
        case.rot_axis_dir = (case.norm_dir + 1) % 3;
    }
    case.numbers[0] = floats::number(rng, style);
    (case.numbers[1], case.numbers[2]) = floats::angles(rng);
}

fn wire(rng: &mut Rng, style: Style, n: usize) -> Vec<f64> {
    let mut list: Vec<f64> = (0..3 * n).map(|_| floats::number(rng, style)).collect();
    if n > 1 && rng.one_in(5) {
        let at = 3 * rng.below(n - 1);
        list.copy_within(at..at + 3, at + 3);
    }
    list
}

/// The angles of points and boxes, where they may be taken as cylindrical.
fn angles(rng: &mut Rng, case: &mut Case) {
    if case.own < 2 && case.default == 0 || rng.one_in(6) {
        return;
    }
    match case.shape {
        BOX => (case.numbers[1], case.numbers[4]) = floats::angles(rng),
        CYLINDER | CYLINDRICAL_SHELL => (case.numbers[1], case.numbers[4]) = (floats::angle(rng), floats::angle(rng)),
        SPHERE | SPHERICAL_SHELL => case.numbers[1] = floats::angle(rng),
        MULTI_BOX => {
            for c in case.list.chunks_exact_mut(6) {
                (c[1], c[4]) = match rng.below(20) {
                    0 => floats::angles(rng),
                    1..=4 => (floats::quarter_point(rng), floats::quarter_point(rng)),
                    _ => (rng.unit(), 7.0 * rng.unit()),
                };
            }
        }
        WIRE => {
            for c in case.list.chunks_exact_mut(3) {
                c[1] = match rng.below(20) {
                    0 => floats::angle(rng),
                    1..=4 => floats::quarter_point(rng),
                    _ => 2000.0 * rng.unit() - 1000.0,
                };
            }
        }
        _ => (),
    }
}

/// Segments and rings: mostly few, often multiples of 4, sometimes at their edge, as many as the mesh stays small.
fn options(rng: &mut Rng, case: &mut Case) {
    let (round, ringed) = match case.shape {
        SPHERE | SPHERICAL_SHELL => (1, true),
        WIRE => (case.list.len() / 3, true),
        MULTI_BOX => (case.list.len() / 6, false),
        ROT_POLY => (case.list.len() / 2, false),
        _ => (1, false),
    };
    let room = 4096 / round.max(1);
    let few = |rng: &mut Rng| match rng.below(12) {
        0..=1 => rng.between(0, 33),
        2..=4 => 4 * rng.between(1, 4),
        _ => rng.between(0, 9),
    };
    let (mut segments, mut rings) = (few(rng), few(rng));
    if rng.one_in(12) {
        // Of 44, 52, 104 and 220 segments a quarter of the turn misses its quarter point by a last bit.
        segments = rng.pick(&[1024, 1024, 1025, 1023, 13, 26, 44, 52, 100, 104, 220]);
    }
    if rng.one_in(30) {
        rings = rng.pick(&[1024, 1025]);
        segments = rng.pick(&[0, 1, 3, 4]);
    }
    if segments <= 1024 && rings <= 1024 {
        segments = segments.min(room.max(3));
        if ringed {
            rings = rings.min((room / segments.max(3)).max(2));
        }
    }
    if case.shape == SPHERE && rng.one_in(300) {
        // As many vertices as may be lent, nearly; and more.
        (segments, rings) = rng.pick(&[(256, 128), (1024, 64), (1024, 66), (64, 1024)]);
    }
    (case.segments, case.sphere_rings) = (segments as u32, rings as u32);
    if rng.one_in(150) {
        case.segments = u32::MAX - rng.below(2) as u32;
    }
}

/// Now and then a number that is not finite, half an item, or a list that the shape does not have.
fn disturb(rng: &mut Rng, case: &mut Case) {
    let given = NUMBERS[case.shape as usize];
    if rng.one_in(80) {
        floats::spoil(rng, &mut case.numbers[..given]);
    }
    if case.items().is_some() {
        if rng.one_in(80) {
            floats::spoil(rng, &mut case.list);
        }
        if rng.one_in(60) {
            case.list.pop();
        }
    } else if rng.one_in(40) {
        case.list = vec![floats::not_finite(rng); rng.between(1, 5)];
    }
}
