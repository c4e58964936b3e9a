//! Cases by seed: every shape and call, and each refusal on both sides of its edge.
mod boxes;
mod files;
mod floats;
mod meshes;
mod operations;
mod outlines;
mod places;
mod solids;

use crate::case::{CLIP, Case};
use crate::rng::Rng;

/// Runs of cases of one kind: `all`, `calls`, `solids`, `outlines`, `mesh` or `files`; `calls` is all but files. The meshes A and B pass from case to
/// case.
pub fn runs(seed: u64, kind: &str) -> impl Iterator<Item = Vec<Case>> {
    let kind = kind.to_string();
    let mut rng = Rng::new(seed);
    std::iter::repeat_with(move || run(&mut rng, &kind))
}

fn run(rng: &mut Rng, kind: &str) -> Vec<Case> {
    match kind {
        "solids" => vec![solids::solid(rng)],
        "outlines" => vec![clipping(rng)],
        "mesh" => meshes::calls(rng, false),
        "files" => files::run(rng),
        "calls" => calls(rng),
        "all" if rng.one_in(3) => files::run(rng),
        "all" => {
            let mut run = calls(rng);
            if run.len() > 1 && rng.one_in(4) {
                files::insert(rng, &mut run);
            } else if rng.one_in(100) {
                files::give_unread(rng, &mut run[0]);
            }
            run
        }
        other => panic!("no kind {other}: all, calls, solids, outlines, mesh, files"),
    }
}

/// A solid, an outline or mesh calls.
fn calls(rng: &mut Rng) -> Vec<Case> {
    match rng.below(8) {
        0..=4 => vec![solids::solid(rng)],
        5..=6 => vec![clipping(rng)],
        _ => {
            let tessellated = rng.one_in(2);
            meshes::calls(rng, tessellated)
        }
    }
}

/// An outline to clip by itself.
fn clipping(rng: &mut Rng) -> Case {
    let mut case = Case { what: CLIP, list: outlines::outline(rng), ..Case::default() };
    if rng.one_in(40) {
        floats::spoil(rng, &mut case.list);
    }
    if rng.one_in(40) {
        case.list.pop();
    }
    case.triangle_numbers = places::for_clipping(rng, &case);
    case
}
