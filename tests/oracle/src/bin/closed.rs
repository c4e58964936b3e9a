//! `closed CASES RESULTS`: checks a result file against demand 3, the fill and the box of docs/SCOPE.md, trusting neither program. Which solids a
//! file has it takes from the oracle's reader.
use oracle::case::*;
use oracle::closed::{box_of, closed, is_closed_solid, sound};
use oracle::fixture;
use oracle::refusals::Lent;
use std::collections::BTreeMap;
use std::fs::File;
use std::io::{self, BufReader, Read};

const CALLS: [&str; 10] =
    ["", "tessellate", "clip", "append", "flip", "transform", "measure", "exchange", "load", "file"];

#[derive(Default)]
struct Tally {
    /// (call, refusal) → cases
    refusals: BTreeMap<(u8, u32), usize>,
    /// For each shape: accepted, of these with triangles, checked for closedness, of these with triangles.
    shapes: [[usize; 4]; 10],
    /// Edits checked: a closed mesh stayed closed.
    kept: usize,
    /// Records checked: the box of the counted vertices, bit by bit.
    boxes: usize,
    /// Files accepted, of these with triangles, checked for closedness, of these with triangles; the solids of the accepted ones.
    files: [usize; 5],
    failures: usize,
}

impl Tally {
    fn expect(&mut self, holds: bool, number: usize, case: &Case, what: &str) {
        if !holds {
            self.failures += 1;
            if self.failures <= 20 {
                println!("FAILED: case {number}: {what}: {case:?}");
            }
        }
    }
}

fn main() -> io::Result<()> {
    let args: Vec<String> = std::env::args().collect();
    let [_, cases, results] = &args[..] else {
        eprintln!("usage: closed CASES RESULTS");
        std::process::exit(2);
    };
    let mut cases = BufReader::with_capacity(1 << 20, File::open(cases)?);
    let mut results = BufReader::with_capacity(1 << 20, File::open(results)?);
    let (mut a, mut b) = (Lent::default(), Lent::default());
    let mut tally = Tally::default();
    let mut number = 0;
    while let Some(case) = Case::read(&mut cases)? {
        let refusal = read_word(&mut results)?;
        *tally.refusals.entry((case.what, refusal)).or_default() += 1;
        match case.what {
            CLIP => {
                let counts = [read_word(&mut results)?, read_word(&mut results)?];
                let slice = words(&mut results, case.triangle_numbers as usize)?;
                check_clip(&mut tally, number, &case, refusal, counts, &slice);
            }
            MEASURE => {
                let measured = floats(&mut results, 9)?;
                let right =
                    if refusal == 0 { !a.broken() && same(&measured[3..], &box_of(&a)) } else { zero(&measured) };
                tally.expect(right, number, &case, "not the box of the vertices, or refused and not zero");
            }
            EXCHANGE => std::mem::swap(&mut a, &mut b),
            PLAN => {
                let mut output = vec![0; case.output_bytes as usize];
                results.read_exact(&mut output)?;
                check_plan(&mut tally, number, &case, refusal, &output);
            }
            _ => {
                let before = std::mem::take(&mut a);
                a = mesh(&mut results, &case, &before)?;
                if case.what == TESSELLATE {
                    let work = words(&mut results, case.work_numbers as usize)?;
                    tally.expect(work.iter().all(|&w| w == 0), number, &case, "work is not zero");
                    check_solid(&mut tally, number, &case, refusal, &a);
                } else if case.what != LOAD {
                    check_edit(&mut tally, number, &case, refusal, &before, &b, &a);
                }
            }
        }
        number += 1;
    }
    tally.expect(results.read(&mut [0])? == 0, number, &Case::default(), "results go on after the last case");
    report(&tally, number);
    std::process::exit((tally.failures > 0) as i32);
}

/// The mesh of a result. Its slices are as long as the case says, or as before.
fn mesh(from: &mut impl Read, case: &Case, before: &Lent) -> io::Result<Lent> {
    let new = case.what == TESSELLATE || case.what == LOAD;
    let floats = if new { case.vertex_floats as usize } else { before.vertices.len() };
    let numbers = if new { case.triangle_numbers as usize } else { before.triangles.len() };
    let (vertex_count, triangle_count) = (read_word(from)?, read_word(from)?);
    let bounds = self::floats(from, 6)?.try_into().expect("six floats");
    let vertices = self::floats(from, floats)?;
    Ok(Lent { vertices, triangles: words(from, numbers)?, vertex_count, triangle_count, bounds })
}

fn floats(from: &mut impl Read, n: usize) -> io::Result<Vec<f64>> {
    (0..n).map(|_| read_float(from)).collect()
}

fn words(from: &mut impl Read, n: usize) -> io::Result<Vec<u32>> {
    (0..n).map(|_| read_word(from)).collect()
}

/// The same bits.
fn same(x: &[f64], y: &[f64]) -> bool {
    x.len() == y.len() && x.iter().zip(y).all(|(x, y)| x.to_bits() == y.to_bits())
}

fn zero(floats: &[f64]) -> bool {
    floats.iter().all(|x| x.to_bits() == 0)
}

fn check_clip(tally: &mut Tally, number: usize, case: &Case, refusal: u32, counts: [u32; 2], slice: &[u32]) {
    let corners = case.list.len() / 2;
    let (triangles, removed) = (counts[0] as usize, counts[1] as usize);
    if refusal != 0 {
        tally.expect(counts == [0, 0], number, case, "refused, counts not zero");
    }
    tally.expect(3 * triangles <= slice.len(), number, case, "count beyond the slice");
    tally.expect(slice[3 * triangles..].iter().all(|&w| w == 0), number, case, "unused places not zero");
    tally.expect(removed <= corners.saturating_sub(3), number, case, "removed above n - 3");
    let known = slice[..3 * triangles].iter().all(|&v| (v as usize) < corners);
    tally.expect(known, number, case, "a corner that is not there");
}

fn check_solid(tally: &mut Tally, number: usize, case: &Case, refusal: u32, mesh: &Lent) {
    if refusal != 0 {
        let empty = mesh.vertex_count == 0 && mesh.triangle_count == 0;
        tally.expect(empty && same(&mesh.bounds, &EMPTY_BOX), number, case, "refused and not the empty record");
        let blank = zero(&mesh.vertices) && mesh.triangles.iter().all(|&w| w == 0);
        return tally.expect(blank, number, case, "refused and not all zero");
    }
    if !check_record(tally, number, case, mesh) {
        return;
    }
    let (floats, numbers) = (mesh.counted_vertices().len(), mesh.counted_triangles().len());
    let blank = zero(&mesh.vertices[floats..]) && mesh.triangles[numbers..].iter().all(|&w| w == 0);
    tally.expect(blank, number, case, "unused places not zero");
    tally.expect(sound(mesh), number, case, "a triangle names a vertex twice or one that is not there");
    let full = (mesh.triangle_count > 0) as usize;
    let closed_solid = is_closed_solid(case);
    if closed_solid {
        tally.expect(closed(mesh), number, case, "not closed");
    }
    let line = &mut tally.shapes[case.shape as usize];
    line[0] += 1;
    line[1] += full;
    line[2] += closed_solid as usize;
    line[3] += closed_solid as usize * full;
}

/// Whether the counted vertices are within the slices and finite, and the counted triangles name them; then the box must be theirs, bit by bit.
fn check_record(tally: &mut Tally, number: usize, case: &Case, mesh: &Lent) -> bool {
    let whole = !mesh.broken() && !mesh.not_finite();
    tally.expect(whole, number, case, "not a mesh of finite vertices within its slices");
    if whole {
        tally.expect(same(&mesh.bounds, &box_of(mesh)), number, case, "not the box of its vertices");
        tally.boxes += 1;
    }
    whole
}

/// Refused, or a transform without operations: nothing changed. Else the box is that of the vertices, closed stays closed, sound stays sound,
/// and places beyond the counts are untouched.
fn check_edit(tally: &mut Tally, number: usize, case: &Case, refusal: u32, before: &Lent, other: &Lent, after: &Lent) {
    let idle = case.what == TRANSFORM && case.ops.is_empty();
    if refusal != 0 || idle {
        let counts = (before.vertex_count, before.triangle_count) == (after.vertex_count, after.triangle_count);
        let slices = same(&before.vertices, &after.vertices) && before.triangles == after.triangles;
        let unchanged = counts && same(&before.bounds, &after.bounds) && slices;
        tally.expect(unchanged, number, case, "refused or without operations, and changed");
        if refusal == 0 {
            // Equal as floats: a bound may be −0.0.
            let accepted = !after.broken() && !after.not_finite() && after.bounds == box_of(after);
            tally.expect(accepted, number, case, "accepted with another box");
        }
        return;
    }
    if !check_record(tally, number, case, after) {
        return;
    }
    let (floats, numbers) = (after.counted_vertices().len(), after.counted_triangles().len());
    let untouched = same(&before.vertices[floats..], &after.vertices[floats..])
        && before.triangles[numbers..] == after.triangles[numbers..];
    tally.expect(untouched, number, case, "a place beyond the counts was touched");
    let appended = case.what == APPEND;
    if closed(before) && (!appended || closed(other)) {
        tally.expect(closed(after), number, case, "no longer closed");
        tally.kept += 1;
    }
    if sound(before) && (!appended || sound(other)) {
        tally.expect(sound(after), number, case, "no longer sound");
    }
}

/// Refused: zeros. Accepted: a mesh within the places of its solids, then zeros; closed where each solid of the file is to be.
fn check_plan(tally: &mut Tally, number: usize, case: &Case, refusal: u32, output: &[u8]) {
    let zero = |bytes: &[u8]| bytes.iter().all(|&byte| byte == 0);
    if refusal != 0 {
        return tally.expect(zero(output), number, case, "refused and not all zero");
    }
    let solids = fixture::solids(&case.file.0).unwrap_or_default();
    tally.expect(!solids.is_empty(), number, case, "accepted, and no file with solids");
    let Some((mesh, after)) = output_mesh(output) else {
        return tally.expect(false, number, case, "counts beyond the output");
    };
    let within =
        mesh.vertex_count as usize <= 1024 * solids.len() && mesh.triangle_count as usize <= 2048 * solids.len();
    tally.expect(within, number, case, "more vertices or triangles than the solids may have");
    tally.expect(zero(after), number, case, "bytes after the mesh not zero");
    tally.expect(!mesh.not_finite(), number, case, "a vertex that is not finite");
    tally.expect(sound(&mesh), number, case, "a triangle names a vertex twice or one that is not there");
    let full = (mesh.triangle_count > 0) as usize;
    let closed_solids = solids.iter().all(is_closed_solid);
    if closed_solids {
        tally.expect(closed(&mesh), number, case, "not closed");
    }
    let line = [1, full, closed_solids as usize, closed_solids as usize * full, solids.len()];
    tally.files.iter_mut().zip(line).for_each(|(to, from)| *to += from);
}

/// The mesh of the planner's output and the bytes after it; none where the counts do not fit.
fn output_mesh(output: &[u8]) -> Option<(Lent, &[u8])> {
    let mut rest = output;
    let (vertex_count, triangle_count) = (read_word(&mut rest).ok()?, read_word(&mut rest).ok()?);
    if rest.len() < 24 * vertex_count as usize + 12 * triangle_count as usize {
        return None;
    }
    let vertices = floats(&mut rest, 3 * vertex_count as usize).ok()?;
    let triangles = words(&mut rest, 3 * triangle_count as usize).ok()?;
    Some((Lent { vertices, triangles, vertex_count, triangle_count, ..Lent::default() }, rest))
}

/// Lines of a subject, a thing counted and a number, with tabs between.
fn report(tally: &Tally, number: usize) {
    println!("cases\tall\t{number}");
    for ((call, refusal), n) in &tally.refusals {
        let outcome = if *refusal == 0 { "accepted".to_string() } else { format!("refusal {refusal}") };
        println!("{}\t{outcome}\t{n}", CALLS[*call as usize]);
    }
    for (shape, line) in SHAPES.iter().zip(&tally.shapes) {
        for (name, n) in
            ["accepted", "accepted, not empty", "checked closed", "checked closed, not empty"].iter().zip(line)
        {
            println!("{shape}\t{name}\t{n}");
        }
    }
    let names = ["accepted, not empty", "checked closed", "checked closed, not empty", "solids of the accepted ones"];
    for (name, n) in names.iter().zip(&tally.files[1..]) {
        println!("file\t{name}\t{n}");
    }
    println!("records\tbox of the vertices\t{}", tally.boxes);
    println!("edits\tclosed meshes that stayed closed\t{}", tally.kept);
    println!("failures\tall\t{}", tally.failures);
}
