//! The part of the sample that has files.
use csx::tessellate::TriMesh;
use oracle::calls::{Meshes, tessellate};
use oracle::case::*;
use oracle::closed::is_closed_solid;
use oracle::fixture::{
    self, DEFAULT_SYSTEM, DEGREES, DIRECTIONS, FIRST_SOLID, LONGEST, OPERATION, OPTIONS, OWN_SYSTEM,
};
use oracle::generate::runs;
use oracle::reference::untransformed;
use oracle::refusals::{LENGTH, NO_SOLID, UNKNOWN};
use std::cmp::Reverse;
use std::io::{self, Write};

/// Runs looked at.
const LOOKED_AT: usize = 40_000;
/// Of a file with more solids, its settings and solids are not looked at.
const MOST_SOLIDS: usize = 50;

/// A run, the things that it shows and is not too long for, and its bytes with those of its results.
struct Candidate {
    run: Vec<Case>,
    things: Vec<String>,
    bytes: usize,
}

/// Writes few runs that show all that there is to show: again and again the one that shows most of what is missing, of these the shortest.
pub fn choose(seed: u64, meshes: &Meshes, to: &mut impl Write) -> io::Result<()> {
    let looked_at = runs(seed, "files").take(LOOKED_AT).map(|run| candidate(run, meshes));
    let mut candidates: Vec<Candidate> = looked_at.collect::<io::Result<_>>()?;
    loop {
        let best = candidates.iter().max_by_key(|candidate| (candidate.things.len(), Reverse(candidate.bytes)));
        let Some(best) = best.filter(|best| !best.things.is_empty()) else {
            return Ok(());
        };
        best.run.iter().try_for_each(|case| case.write(to))?;
        let shown = best.things.clone();
        candidates.iter_mut().for_each(|candidate| candidate.things.retain(|thing| !shown.contains(thing)));
        candidates.retain(|candidate| !candidate.things.is_empty());
    }
}

fn candidate(run: Vec<Case>, meshes: &Meshes) -> io::Result<Candidate> {
    let (mut bytes, mut things) = (Vec::new(), Vec::new());
    let mut meshes = if run.len() > 1 { meshes.clone() } else { Meshes::default() };
    for case in &run {
        let start = bytes.len();
        meshes.run(case, &mut bytes)?;
        if case.what == PLAN {
            things.extend(shows(case, bytes[start] as u32));
        }
        case.write(&mut bytes)?;
    }
    if run.len() > 1 {
        things = vec!["files among mesh calls".into()];
    }
    things.sort_unstable();
    things.dedup();
    things.retain(|thing| bytes.len() <= most_bytes(thing));
    Ok(Candidate { run, things, bytes: bytes.len() })
}

/// The most bytes of a run and its results that are given to a thing.
fn most_bytes(thing: &str) -> usize {
    match thing {
        _ if thing.contains("bytes of file") => 68_000,
        _ if thing.contains("places") => 52_000,
        _ if thing.contains("rings as a file begins") => 25_000,
        _ if thing.contains("too long a list") => 14_000,
        _ if thing.contains("of size Some(3)") => 12_000,
        _ if thing.contains("256 operations") => 5_000,
        _ => 3_000,
    }
}

struct Field<'a> {
    tag: u8,
    payload: &'a [u8],
}

/// A file as far as it can be read: its good fields, and the refusals that it would get one after another.
struct Reading<'a> {
    fields: Vec<Field<'a>>,
    /// The refusals of fields, with what they are due for.
    faults: Vec<(u32, String)>,
}

fn reading(file: &[u8]) -> Reading<'_> {
    let mut out = Reading { fields: Vec::new(), faults: Vec::new() };
    let mut rest = file;
    while !rest.is_empty() {
        match fixture::field(rest) {
            Ok((tag, payload)) => out.fields.push(Field { tag, payload }),
            Err(LENGTH) => out.faults.push((LENGTH, of_length(rest))),
            Err(refusal) => out.faults.push((refusal, of_unknown(rest))),
        }
        match fixture::length(rest).and_then(|length| rest.get(3 + length..)) {
            Some(after) => rest = after,
            None => break,
        }
    }
    out
}

/// What a field with a known tag and a known first byte gets 9 for.
fn of_length(bytes: &[u8]) -> String {
    let tag = bytes[0];
    let Some(length) = fixture::length(bytes) else {
        return format!("{} bytes of a field", bytes.len());
    };
    let Some(payload) = bytes.get(3..3 + length) else {
        return format!("past the end{}", if bytes.len() == 2 + length { " by one" } else { "" });
    };
    let longer = [payload, &[0]].concat();
    let reason = match length {
        0 if tag >= FIRST_SOLID => return "a solid without payload".into(),
        0 => "no payload",
        _ if fixture::fits(tag, &longer) => "one short",
        _ if fixture::fits(tag, &payload[..length - 1]) => "one long",
        _ if tag >= FIRST_SOLID
            && (length - DIRECTIONS[(tag - FIRST_SOLID) as usize].min(length)).is_multiple_of(8) =>
        {
            "of whole floats"
        }
        _ => return "another length".into(),
    };
    format!("tag {tag:02x} {reason}")
}

/// What a field gets 10 for, and whether its length would get 9.
fn of_unknown(bytes: &[u8]) -> String {
    let tag = bytes[0];
    let payload = fixture::length(bytes).and_then(|length| bytes.get(3..3 + length));
    match tag {
        DEFAULT_SYSTEM..=OPERATION => {
            let edge = if tag == OPERATION { [0, 9] } else { [2, 255] }.contains(&bytes[3]);
            let right = payload.is_some_and(|payload| tag == OPERATION || payload.len() == 1);
            match (edge, right) {
                (_, false) => format!("tag {tag:02x}, and 9"),
                (true, _) => format!("tag {tag:02x} byte {}", bytes[3]),
                _ => "another byte".into(),
            }
        }
        0x00 | 0x06 | 0x0F | 0x1A => format!("tag {tag:02x}"),
        _ if payload.is_none() => "unknown tag, and 9".into(),
        _ => "unknown tag".into(),
    }
}

/// What a case shows, its result given: a refusal with its reason and with those that would come after it; or what an accepted file has.
fn shows(case: &Case, refusal: u32) -> Vec<String> {
    let file = &case.file.0;
    let read = reading(file);
    let due = due(case, &read);
    let mut out = Vec::new();
    let drawn = case.output_bytes > 300;
    if drawn && (file.len() == LONGEST && due.is_empty() || file.len() == LONGEST + 1 && due.len() == 1) {
        out.push(format!("{} bytes of file", file.len()));
    }
    out.extend((case.list.len() + case.ops.len() > 0).then(|| "a list and operations beside the file".into()));
    out.extend(due.first().map(|first| format!("{first} at first")));
    out.extend(due.iter().skip(1).map(|later| format!("{} before {later}", due[0])));
    if let Some((refusal, reason)) = read.faults.first()
        && file.len() <= LONGEST
    {
        out.push(format!("{refusal} for {reason}"));
    }
    if refusal == NO_SOLID {
        out.push(format!("11 of {} fields", read.fields.len().min(2)));
    }
    let solids = fixture::solids(file).unwrap_or_default();
    if !solids.is_empty() && solids.len() <= MOST_SOLIDS {
        out.extend(of_solids(case, refusal, &solids));
        if refusal == 0 {
            out.extend(of_settings(&read.fields, &solids));
        }
    }
    out
}

/// The names of all refusals that a file would get if those before were not there, in their order.
fn due(case: &Case, read: &Reading) -> Vec<String> {
    let mut out = Vec::new();
    if case.file.0.len() > LONGEST {
        out.push("9 of the file".to_string());
    }
    for (refusal, reason) in &read.faults {
        let both = *refusal == UNKNOWN && reason.ends_with("and 9");
        out.push(format!("{refusal}{}", if both { " with 9" } else { "" }));
    }
    let good: Vec<u8> = read.fields.iter().flat_map(|field| bytes(field)).collect();
    let solids = fixture::listed(&good).unwrap_or_default();
    if solids.is_empty() {
        out.push("11".into());
        return out;
    }
    let mut right = 8;
    for solid in &solids {
        match tessellate(solid) {
            Ok(mesh) => right += fixture::bytes_of(&mesh) - 8,
            Err(refusal) => out.push(format!("a solid's {refusal}")),
        }
    }
    if right > case.output_bytes as usize {
        out.push("the output's 7".into());
    }
    out.dedup();
    out
}

fn bytes(field: &Field) -> Vec<u8> {
    [&[field.tag], &(field.payload.len() as u16).to_le_bytes()[..], field.payload].concat()
}

/// What the solids of a file without faults show, and the length of the output.
fn of_solids(case: &Case, refusal: u32, solids: &[Case]) -> Vec<String> {
    let meshes: Vec<_> = solids.iter().map(tessellate).collect();
    if let Some(at) = meshes.iter().position(|mesh| mesh.is_err()) {
        let mut out = vec![format!("{refusal} of {} solid", if at == 0 { "the first" } else { "a later" })];
        out.extend(of_refused(refusal, &solids[at]));
        return out;
    }
    let right = 8 + meshes.iter().flatten().map(|mesh| fixture::bytes_of(mesh) - 8).sum::<usize>();
    let lent = case.output_bytes as usize;
    if right > lent {
        let short = match lent {
            0 | 7 => lent.to_string(),
            1..8 => "below 8".into(),
            _ if lent + 1 == right => "one short".into(),
            _ => "short".into(),
        };
        return vec![format!("output {short}")];
    }
    let mut out = vec![format!("room for {}", (lent - right).min(5)), format!("{} solids", solids.len().min(6))];
    for (solid, mesh) in solids.iter().zip(meshes.iter().flatten()) {
        out.extend(of_accepted(solid, mesh));
    }
    out.extend((solids.len() > 1 && right > 400 && solids.iter().all(is_closed_solid)).then(|| "closed solids".into()));
    out
}

/// The edge at which a solid is refused.
fn of_refused(refusal: u32, solid: &Case) -> Option<String> {
    let edge = |n: u32| if n == 1025 { "1,025" } else { "above" };
    match refusal {
        3 if solid.segments > 1024 => Some(format!("segments {}", edge(solid.segments))),
        3 => Some(format!("rings {}", edge(solid.sphere_rings))),
        4 if solid.ops.len() >= 256 => Some("256 operations or more".into()),
        4 if solid.ops.len() > 16 => Some(format!("{} operations", solid.ops.len().min(18))),
        4 => Some(format!("too long a list {}", solid.shape)),
        5 => {
            let soup = untransformed(solid);
            (soup.vertices.len() > 1024 || soup.triangles.len() > 2048).then(|| "5 before its 7".into())
        }
        7 => {
            let (vertex_floats, triangle_numbers, work_numbers) = (1 << 20, 1 << 20, 1 << 20);
            let roomy = Case { vertex_floats, triangle_numbers, work_numbers, ..solid.clone() };
            Some(match tessellate(&roomy) {
                Ok(mesh) if mesh.vertices.len() == 1025 => "7 for one vertex".into(),
                Ok(mesh) if mesh.vertices.len() > 1024 => "7 for vertices".into(),
                Ok(mesh) => format!("7 for {} triangles", mesh.triangles.len().min(2051)),
                Err(later) => format!("7 before its {later}"),
            })
        }
        _ => None,
    }
}

/// What an accepted solid shows.
fn of_accepted(solid: &Case, mesh: &TriMesh) -> Vec<String> {
    let (shape, own, default) = (solid.shape, solid.own, solid.default);
    let triangles = mesh.triangles.len();
    if triangles == 0 {
        return vec![format!("shape {shape} without triangles, list {}", solid.list.is_empty())];
    }
    let size = [12, 40, 120, usize::MAX].iter().position(|&most| triangles <= most);
    let mut out = vec![format!("shape {shape} of size {size:?}")];
    match shape {
        POLYGON | LIN_POLY => out.push(format!("shape {shape} normal {}", solid.norm_dir.min(3))),
        ROT_POLY => out.push(format!("shape {shape} normal {}, axis {}", solid.norm_dir, solid.rot_axis_dir)),
        _ => out.push(format!("shape {shape} in systems {own} {default}")),
    }
    out.extend(solid.ops.iter().map(|op| format!("kind {}, degrees {}", op.kind, solid.degrees)));
    out.extend((solid.ops.len() == 16).then(|| "16 operations".into()));
    out.extend((mesh.vertices.len() == 1024).then(|| "all vertex places".into()));
    out.extend((triangles == 2048).then(|| "all triangle places".into()));
    out
}

/// Segments or rings matter in any system.
fn is_round(solid: &Case) -> bool {
    !matches!(solid.shape, BOX | MULTI_BOX | POLYGON | LIN_POLY)
}

/// How an accepted file sets what its solids have.
fn of_settings(fields: &[Field], solids: &[Case]) -> Vec<String> {
    let groups: Vec<&[Field]> = fields.split_inclusive(|field| field.tag >= FIRST_SOLID).collect();
    let mut out = Vec::new();
    for (at, solid) in solids.iter().enumerate() {
        out.extend(of_order(groups[at], solid));
        if groups[..=at].iter().all(|group| with_tag(group, OPTIONS).count() == 0) {
            let ringed = solid.shape == SPHERE && solid.numbers[3] > 0.001;
            out.extend(is_round(solid).then(|| "segments as a file begins".into()));
            out.extend(ringed.then(|| "rings as a file begins".into()));
        }
        if at > 0 {
            out.extend(of_held(groups[at - 1], groups[at], solid));
        }
    }
    let unused = groups.get(solids.len()).copied().unwrap_or_default();
    out.extend(unused.iter().map(|field| format!("tag {:02x} not used", field.tag)));
    out.extend((with_tag(unused, OPERATION).count() > 16).then(|| "more than 16 operations not used".into()));
    out
}

fn with_tag<'a>(fields: &'a [Field], tag: u8) -> impl DoubleEndedIterator<Item = &'a Field<'a>> {
    fields.iter().filter(move |field| field.tag == tag)
}

fn is_rotated(solid: &Case) -> bool {
    solid.ops.iter().any(|op| (2..=5).contains(&op.kind))
}

/// Points of the solid are taken in a system.
fn is_pointed(solid: &Case) -> bool {
    !matches!(solid.shape, POLYGON | LIN_POLY | ROT_POLY)
}

/// Fields of a solid that replace others, and its degrees mark before, among or after its operations.
fn of_order(group: &[Field], solid: &Case) -> Vec<String> {
    let mut out = Vec::new();
    for tag in OPTIONS..=DEGREES {
        let first = with_tag(group, tag).next().map(|field| field.payload);
        let last = with_tag(group, tag).next_back().map(|field| field.payload);
        let (matters, last_byte) = match tag {
            OPTIONS => (is_round(solid), 0),
            DEFAULT_SYSTEM => (is_pointed(solid) && solid.own == 0, solid.default),
            OWN_SYSTEM => (is_pointed(solid), solid.own),
            _ => (is_rotated(solid), solid.degrees),
        };
        out.extend((first != last && matters).then(|| format!("tag {tag:02x} replaced by {last_byte}")));
    }
    if let Some(mark) = group.iter().rposition(|field| field.tag == DEGREES)
        && is_rotated(solid)
    {
        let before = with_tag(&group[..mark], OPERATION).count();
        let place = if before == 0 {
            "before"
        } else if before < solid.ops.len() {
            "among"
        } else {
            "after"
        };
        out.push(format!("degrees {} {place} the operations", solid.degrees));
    }
    out
}

/// What the solid before set, and this one does not: it holds, or it has served.
fn of_held(before: &[Field], group: &[Field], solid: &Case) -> Vec<String> {
    let set_before = |tag: u8| with_tag(before, tag).count() > 0 && with_tag(group, tag).count() == 0;
    let pointed = is_pointed(solid);
    let mut out = Vec::new();
    out.extend((set_before(OPTIONS) && is_round(solid)).then(|| "01 holds".into()));
    out.extend(
        (set_before(DEFAULT_SYSTEM) && pointed && solid.own == 0).then(|| format!("02 holds, {}", solid.default)),
    );
    out.extend((set_before(OWN_SYSTEM) && pointed).then(|| format!("03 has served, {}", solid.default)));
    out.extend((set_before(DEGREES) && is_rotated(solid)).then(|| "04 has served".into()));
    out.extend(set_before(OPERATION).then(|| "05 has served".into()));
    out
}
