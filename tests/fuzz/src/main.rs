//! Calls of crates/sizturga on random, damaged and long files, with every slice between guards.
//!
//! `fuzz CALLS SEED`, `fuzz worst`, `fuzz file PATH [OUTPUT_LENGTH]`: see tests/fuzz/run.
mod areas;
mod calls;
mod check;
mod cost;
mod crash;
mod damage;
mod draw;
mod worst;

use areas::Place;
use calls::{Call, Calls, Slow};
use oracle::rng::Rng;
use planner::file::File;
use planner::{counts, output_bytes, output_most};
use std::process::ExitCode;

/// Costlier files are passed over: their calls would take long, and the oracle much memory.
const MOST_TRIANGLES: usize = 1_000_000;
const MOST_TESTS: usize = 50_000_000;
/// The oracle is asked about cheaper files alone.
const MOST_COMPARED: usize = 20_000;
/// Of so many files one is compared.
const COMPARED_ONE_IN: usize = 4;

fn main() -> ExitCode {
    crash::watch();
    let words: Vec<String> = std::env::args().skip(1).collect();
    let words: Vec<&str> = words.iter().map(String::as_str).collect();
    let result = match words[..] {
        ["worst"] => worst::run(),
        ["file", path] => one(path, None),
        ["file", path, length] => one(path, Some(number(length))),
        [calls, seed] => many(number(calls), number(seed) as u64),
        _ => Err("usage: fuzz CALLS SEED, fuzz worst, fuzz file PATH [OUTPUT_LENGTH]".into()),
    };
    match result {
        Ok(()) => ExitCode::SUCCESS,
        Err(text) => {
            println!("FAILED: {text}");
            ExitCode::FAILURE
        }
    }
}

fn number(word: &str) -> usize {
    word.parse().unwrap_or_else(|_| panic!("a number and not {word}"))
}

/// One file, compared with the oracle.
fn one(path: &str, length: Option<usize>) -> Result<(), String> {
    let file = std::fs::read(path).map_err(|e| format!("{path}: {e}"))?;
    let output_length = length.unwrap_or(output_most(file.len()));
    let mut calls = Calls::new();
    let cost = cost::of(&file);
    let (refusal, output) =
        calls.make(&file, &Call { output_length, places: [Place::Last, Place::Last], cost, compare: true })?;
    println!("{path}: answer {refusal}, {:?}, {cost:?}", if refusal == 0 { counts(output) } else { (0, 0) });
    println!("{:.0} ns", calls.slowest.figure);
    Ok(())
}

/// At least so many calls, or up to the first failure.
fn many(wanted: usize, seed: u64) -> Result<(), String> {
    let mut calls = Calls::new();
    let (mut rng, mut passed_over) = (Rng::new(seed), 0);
    let mut result = Ok(());
    while result.is_ok() && calls.count < wanted {
        let file = any_file(&mut rng);
        let cost = cost::of(&file.0);
        if cost.triangles > MOST_TRIANGLES || cost.tests > MOST_TESTS {
            passed_over += 1;
            continue;
        }
        let before = calls.count;
        result = round(&mut rng, &mut calls, &file.0, cost);
        if before * 10 / wanted < calls.count * 10 / wanted {
            eprintln!("{} calls", calls.count);
        }
    }
    report(&calls, passed_over);
    result
}

fn any_file(rng: &mut Rng) -> File {
    let mut file = match rng.below(2000) {
        0 => draw::long(rng),
        1..=400 => return draw::noise(rng),
        _ => draw::file(rng),
    };
    if rng.one_in(2) {
        damage::damage(rng, &mut file);
    }
    file
}

/// A call on a file; where it is accepted, at times two more: with exactly the room that it needs, and with a byte less.
fn round(rng: &mut Rng, calls: &mut Calls, file: &[u8], cost: cost::Cost) -> Result<(), String> {
    let compare = rng.one_in(COMPARED_ONE_IN) && cost.triangles + cost.tests <= MOST_COMPARED;
    let mut call = Call { output_length: output_length(rng, file), places: [place(rng), place(rng)], cost, compare };
    let (refusal, output) = made(calls, file, &call)?;
    if refusal != 0 || !rng.one_in(4) {
        return Ok(());
    }
    let (vertices, triangles) = counts(output);
    let needed = output_bytes(vertices, triangles);
    let mesh = output[..needed].to_vec();
    (call.output_length, call.places[1]) = (needed, place(rng));
    if made(calls, file, &call)? != (0, &mesh[..]) {
        return Err(saved(file, needed, "with exactly the room of its mesh the answer is another"));
    }
    call.output_length = needed - 1;
    match made(calls, file, &call)?.0 {
        7 => Ok(()),
        other => Err(saved(file, needed - 1, &format!("with a byte too few the answer is {other}"))),
    }
}

fn made<'a>(calls: &'a mut Calls, file: &[u8], call: &Call) -> Result<(u32, &'a [u8]), String> {
    calls.make(file, call).map_err(|text| saved(file, call.output_length, &format!("{text}; {:?}", call.places)))
}

fn place(rng: &mut Rng) -> Place {
    match rng.below(4) {
        0 => Place::First,
        1 => Place::Middle(rng.below(100)),
        _ => Place::Last,
    }
}

/// Mostly room for some boxes; few bytes; room for everything.
fn output_length(rng: &mut Rng, file: &[u8]) -> usize {
    match rng.below(40) {
        0 => rng.below(16),
        1..=8 => rng.below(600),
        9 => rng.below(100_000),
        10 if file.len() < 2000 => output_most(file.len()),
        11 if rng.one_in(100) => output_most(file.len()),
        _ => rng.below(8_000),
    }
}

/// Saves a file that shows a failure; the text with its name.
fn saved(file: &[u8], output_length: usize, text: &str) -> String {
    const PATH: &str = "target/failed.fix";
    let told =
        std::fs::write(PATH, file).map_or_else(|e| format!("cannot be saved: {e}"), |()| format!("saved as {PATH}"));
    format!("{text}; output of {output_length} bytes; the file of {} bytes is {told}", file.len())
}

fn report(calls: &Calls, passed_over: usize) {
    println!("calls\t{}", calls.count);
    println!("of these repeated for their time\t{}", calls.count - calls.answers.iter().sum::<usize>());
    println!("accepted\t{}", calls.answers[0]);
    for refusal in (1..12).filter(|r| ![6, 8].contains(r)) {
        println!("refused by {refusal}\t{}", calls.answers[refusal]);
    }
    println!("compared with the oracle\t{}", calls.compared);
    println!("mismatches\t{}", calls.mismatches);
    println!("files passed over, too costly\t{passed_over}");
    slow("greatest time, ns", 0, &calls.slowest, "target/slowest.fix");
    slow("greatest share of its bound", 4, &calls.nearest, "target/nearest.fix");
}

fn slow(what: &str, digits: usize, slow: &Slow, path: &str) {
    let told = std::fs::write(path, &slow.file).map_or_else(|e| e.to_string(), |()| path.to_string());
    println!("{what}\t{:.digits$}\t{told}, output of {} bytes", slow.figure, slow.output_length);
}
