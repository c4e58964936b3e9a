//! The planner's call on files: good ones, solids that are refused, damaged fields, files without solids and long ones, and outputs of lengths near
//! the right one.
mod cost;
mod damage;
mod drafts;
mod fields;
mod large;
mod reasons;

use super::{floats, meshes};
use crate::case::*;
use crate::fixture;
use crate::rng::Rng;
use fields::Field;

/// The most bytes of a file and of an output.
const MOST_FILE_BYTES: usize = 65_600;
const MOST_OUTPUT_BYTES: usize = 2_097_152;
/// The most triangles that the Rust makes for a file before it welds them: mostly, and seldom.
const MOST_TRIANGLES: usize = 20_000;
const SELDOM_MOST_TRIANGLES: usize = 120_000;

/// A call on a file; now and then a run of mesh calls with files among them, which leave the meshes as they are.
pub fn run(rng: &mut Rng) -> Vec<Case> {
    if !rng.one_in(400) {
        return vec![call(rng)];
    }
    let mut run = meshes::calls(rng, false);
    give_unread(rng, &mut run[0]);
    for _ in 0..rng.between(1, 4) {
        insert(rng, &mut run);
    }
    run
}

/// Puts a call on a file among others.
pub fn insert(rng: &mut Rng, run: &mut Vec<Case>) {
    let file = call(rng);
    run.insert(rng.below(run.len() + 1), file);
}

fn call(rng: &mut Rng) -> Case {
    let mut case = Case { what: PLAN, ..Case::default() };
    loop {
        let (many_solids, costly) = (rng.one_in(4000), rng.one_in(100));
        case.file.0 = if many_solids { many(rng) } else { file(rng) }.concat();
        case.file.0.truncate(MOST_FILE_BYTES);
        if cost::within(&case.file.0, if many_solids || costly { SELDOM_MOST_TRIANGLES } else { MOST_TRIANGLES }) {
            break;
        }
    }
    case.output_bytes = output_bytes(rng, &case.file.0).min(MOST_OUTPUT_BYTES) as u32;
    if rng.one_in(300) {
        not_read(rng, &mut case);
    }
    case
}

/// The fields of a file.
fn file(rng: &mut Rng) -> Vec<Field> {
    match rng.below(1000) {
        0..=559 => good(rng),
        560..=729 => refused(rng),
        730..=949 => damaged(rng),
        950..=984 => bare(rng),
        985..=996 => long(rng),
        // Any bytes.
        _ => vec![(0..rng.pick(&[1, 2, 3, 5, 20, 400])).map(|_| rng.bits() as u8).collect()],
    }
}

/// Solids that are accepted, mostly few, and now and then fields after them.
fn good(rng: &mut Rng) -> Vec<Field> {
    let n = match rng.below(100) {
        0..=39 => 1,
        40..=69 => 2,
        70..=89 => rng.between(3, 5),
        90..=97 => rng.between(6, 12),
        _ => rng.between(13, 40),
    };
    let solids = drafts::accepted_solids(rng, n);
    with_unused(rng, &solids)
}

fn with_unused(rng: &mut Rng, solids: &[Case]) -> Vec<Field> {
    let mut file = drafts::written(rng, solids);
    if rng.one_in(5) {
        file.extend(drafts::unused(rng));
    }
    file
}

/// Solids of which one at least has a reason for a refusal; often there are several, in one solid or in two.
fn refused(rng: &mut Rng) -> Vec<Field> {
    let n = rng.pick(&[1, 1, 2, 2, 3, 5]);
    let mut solids = drafts::accepted_solids(rng, n);
    for _ in 0..rng.pick(&[1, 1, 2, 2, 3]) {
        let at = rng.below(n);
        reasons::give(rng, &mut solids[at]);
    }
    let mut file = with_unused(rng, &solids);
    // Now and then a field's refusal, which comes before those of all solids.
    if rng.one_in(8) {
        damage::damage(rng, &mut file);
    }
    file
}

/// Damaged fields; now and then a solid has a reason for a refusal, or there is none.
fn damaged(rng: &mut Rng) -> Vec<Field> {
    let n = rng.pick(&[0, 1, 1, 2, 3]);
    let mut solids = drafts::accepted_solids(rng, n);
    if n > 0 && rng.one_in(6) {
        let at = rng.below(n);
        reasons::give(rng, &mut solids[at]);
    }
    let mut file = with_unused(rng, &solids);
    for _ in 0..rng.pick(&[1, 1, 2, 3]) {
        damage::damage(rng, &mut file);
    }
    file
}

/// Spheres as a file draws them where it sets nothing: 90 fill the longest output nearly, 91 are too many for it.
fn many(rng: &mut Rng) -> Vec<Field> {
    let n = rng.pick(&[20, 50, 90, 91, 91, 110]);
    let sphere = |i: usize| {
        let mut case = Case { shape: SPHERE, ..fixture::first_settings() };
        case.numbers[..4].copy_from_slice(&[i as f64, 1.0, 2.0, 0.5]);
        fields::solid(&case)
    };
    (0..n).map(sphere).collect()
}

/// No solid: no bytes at all, or fields that wait for one, now and then damaged.
fn bare(rng: &mut Rng) -> Vec<Field> {
    if rng.one_in(6) {
        return Vec::new();
    }
    let mut file = drafts::unused(rng);
    if rng.one_in(6) {
        damage::damage(rng, &mut file);
    }
    file
}

/// As long as a file may be, or nearly, or longer, where no field is looked at.
fn long(rng: &mut Rng) -> Vec<Field> {
    let n = rng.below(3);
    let solids = drafts::accepted_solids(rng, n);
    let mut file = drafts::written(rng, &solids);
    if rng.one_in(6) {
        damage::damage(rng, &mut file);
    }
    let length = rng.pick(&[65_535, 65_535, 65_535, 65_534, 65_536, 65_536, 65_537, MOST_FILE_BYTES]);
    if rng.one_in(4) {
        // One solid with a long list takes the rest.
        let missing = length - file.iter().map(Vec::len).sum::<usize>().min(length);
        let payload = vec![0; missing.saturating_sub(3 + rng.below(60)).min(fixture::LONGEST)];
        let tag = rng.pick(&[0x11, 0x16, 0x17, 0x18, 0x19]);
        let whole = whole_items(tag, payload.len());
        file.push(fields::field(tag, &payload[..whole]));
    }
    damage::fill(rng, &mut file, length);
    file
}

/// The most bytes of a solid's payload, up to a length, in which its list has whole items.
fn whole_items(tag: u8, length: usize) -> usize {
    let case = Case { shape: tag - fixture::FIRST_SOLID, ..Case::default() };
    let single = fixture::DIRECTIONS[case.shape as usize] + 8 * case.given().len();
    let item = 8 * case.items().map_or(1, |(floats, _)| floats);
    if length < single { length } else { length - (length - single) % item }
}

/// The length of the output: mostly right or nearly, where the file's solids are accepted; else mostly small.
fn output_bytes(rng: &mut Rng, file: &[u8]) -> usize {
    let Ok(mesh) = fixture::mesh(file) else {
        return match rng.below(100) {
            0 => rng.below(50_000),
            1..=40 => rng.below(12),
            _ => rng.below(700),
        };
    };
    let right = fixture::bytes_of(&mesh);
    match rng.below(400) {
        0 => right + rng.below(5000),
        1 if rng.one_in(20) => MOST_OUTPUT_BYTES,
        2..=29 => right - 1,
        30..=49 => right - rng.between(1, right.min(40)),
        50..=59 => rng.below(right + 1),
        60..=71 => rng.below(10),
        72..=200 => right + rng.between(1, 9),
        201..=240 => right + rng.below(200),
        _ => right,
    }
}

/// Operations, a list and triangle numbers, which a call on a file does not read.
fn not_read(rng: &mut Rng, case: &mut Case) {
    case.ops = vec![Op { kind: rng.between(1, 8) as u8, numbers: [1.0; 16] }; rng.below(3)];
    case.list = (0..rng.below(8)).map(|_| floats::number(rng, floats::Style::Ordinary)).collect();
    case.triangles = (0..rng.below(8)).map(|_| rng.below(9) as u32).collect();
}

/// Bytes of a file in another call, which does not read them.
pub fn give_unread(rng: &mut Rng, case: &mut Case) {
    case.file.0 = (0..rng.between(1, 60)).map(|_| rng.bits() as u8).collect();
    case.output_bytes = rng.below(100) as u32;
}
