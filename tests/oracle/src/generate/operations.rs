//! Transforms: few operations, now and then 16 or 17; mirrored, singular and projective ones.
use super::floats::{self, Style};
use crate::case::{Case, OP_NUMBERS, Op};
use crate::rng::Rng;

/// Gives a case its operations and its degrees mark.
pub fn operations(rng: &mut Rng, case: &mut Case) {
    case.degrees = rng.below(2) as u8;
    let n = match rng.below(40) {
        0..=19 => 0,
        20..=29 => 1,
        30..=36 => rng.between(2, 4),
        37 => rng.between(5, 15),
        38 => 16,
        _ => 16 + rng.below(2),
    };
    // Many large factors overflow: long runs are mostly of moderate ones.
    let style = if n > 4 { Style::Whole } else { floats::style(rng) };
    case.ops = (0..n).map(|_| operation(rng, style, case.degrees == 1)).collect();
    if rng.one_in(60) && n > 0 {
        let at = rng.below(n);
        let kind = case.ops[at].kind as usize;
        floats::spoil(rng, &mut case.ops[at].numbers[..OP_NUMBERS[kind]]);
    }
}

/// One to three operations, mostly with a reason for 4, 1, 2 or 5, now and then none.
pub fn refused(rng: &mut Rng, case: &mut Case) {
    case.degrees = rng.below(2) as u8;
    if rng.one_in(8) {
        return;
    }
    let n = rng.between(1, 3);
    case.ops = (0..n).map(|_| operation(rng, Style::Ordinary, case.degrees == 1)).collect();
    let at = rng.below(n);
    match rng.below(8) {
        0 => case.ops.resize(17, case.ops[at].clone()),
        1 => {
            let kind = case.ops[at].kind as usize;
            floats::spoil(rng, &mut case.ops[at].numbers[..OP_NUMBERS[kind]]);
        }
        2..=3 => {
            case.ops[at] = Op { kind: rng.between(3, 5) as u8, ..Op::default() };
            case.ops[at].numbers[0] = floats::sign(rng) * rng.pick(&[1000f64.next_up(), 1e6]);
            case.degrees = 0;
        }
        4..=5 => {
            case.ops = vec![Op { kind: 6, ..Op::default() }; n];
            case.ops[at].numbers[0] = f64::MAX;
            case.ops.iter_mut().for_each(|op| op.numbers[0] = op.numbers[0].max(2.0));
        }
        _ => (),
    }
}

fn operation(rng: &mut Rng, style: Style, degrees: bool) -> Op {
    let mut op = Op { kind: rng.between(1, 8) as u8, ..Op::default() };
    let angle = if degrees { floats::degrees(rng) } else { floats::angle(rng) };
    match op.kind {
        1 => draw(rng, style, &mut op.numbers[..3]),
        2 => {
            draw(rng, style, &mut op.numbers[..3]);
            op.numbers[3] = angle;
        }
        3..=5 => op.numbers[0] = angle,
        6 => op.numbers[0] = factor(rng, style),
        7 => op.numbers[..3].fill_with(|| factor(rng, style)),
        _ => op.numbers = matrix(rng, style),
    }
    op
}

fn draw(rng: &mut Rng, style: Style, to: &mut [f64]) {
    to.fill_with(|| floats::number(rng, style));
}

fn factor(rng: &mut Rng, style: Style) -> f64 {
    match rng.below(6) {
        0 => 1.0,
        1 => -1.0,
        2 => rng.pick(&[0.0, -0.0]),
        3 => rng.pick(&[0.5, 2.0, -2.0]),
        _ => floats::number(rng, style),
    }
}

fn matrix(rng: &mut Rng, style: Style) -> [f64; 16] {
    let mut m = [0.0; 16];
    m.fill_with(|| floats::number(rng, style));
    // Sparse rows, equal rows, a mirror, an affine last row; else projective.
    match rng.below(5) {
        0 => m.iter_mut().for_each(|x| *x *= rng.below(2) as f64),
        1 => m.copy_within(0..4, 4),
        2 => {
            m = std::array::from_fn(|i| if i % 5 == 0 { 1.0 } else { 0.0 });
            m[5 * rng.below(3)] = -1.0;
        }
        _ => (),
    }
    if !rng.one_in(3) {
        m[12..].copy_from_slice(&[0.0, 0.0, 0.0, 1.0]);
    }
    for x in &mut m {
        if x.is_nan() {
            *x = f64::from_bits(0x7FF8_0000_0000_0000);
        }
    }
    m
}
