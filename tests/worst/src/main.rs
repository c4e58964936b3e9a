//! Looks for the drawings on which ours is slowest. `worst N SEED [NUMBER]`: N random drawings of all solids, soups and outlines, ours and the
//! unpatched Rust on each; with a NUMBER only the drawing of this number, in full. Ends with status 1 where a bar is missed.
mod drawings;
mod numbers;
mod outlines;
mod report;
#[path = "../../oracle/src/rng.rs"]
mod rng;
mod solids;
mod soup_count;
mod soups;
mod timing;

use drawings::{Drawing, EMPTY, KINDS};
use report::Table;
use timing::Ready;

fn main() {
    let args: Vec<u64> = std::env::args().skip(1).map(|a| a.parse().expect("worst N SEED [NUMBER]")).collect();
    let (n, seed) = (args[0] as usize, args[1]);
    if let Some(&number) = args.get(2) {
        return shown(&Drawing::random(seed, number as usize));
    }
    println!("drawing\tours, ns a soup triangle\tRust\tRust / ours");
    for drawing in drawings::named() {
        let (count, times) = again(&drawing);
        let each = count as f64;
        println!("{}\t{:.1}\t{:.1}\t{:.2}", drawing.text(), times.ours / each, times.rust / each, times.ratio());
    }
    let mut tables: Vec<Table> = KINDS.iter().chain([&EMPTY]).map(|k| Table::new(k, seed)).collect();
    for number in 0..n {
        measure(seed, number, &mut tables);
    }
    if !report::print(&mut tables, n, seed) {
        std::process::exit(1);
    }
}

/// Times a drawing once; a suspicious one again.
fn measure(seed: u64, number: usize, tables: &mut [Table]) {
    let drawing = Drawing::random(seed, number);
    let Some(mut ready) = Ready::new(&drawing) else {
        tables[number % KINDS.len()].refused += 1;
        return;
    };
    let mut times = ready.times(1);
    if times.ratio() < timing::SUSPICIOUS {
        times = ready.times(timing::TURNS);
    }
    tables[drawings::row(number, &drawing.input, ready.triangles)].push(number, ready.triangles, &times);
}

/// Times a drawing several times.
fn again(drawing: &Drawing) -> (usize, timing::Times) {
    let mut ready = Ready::new(drawing).expect("a drawing that is accepted");
    (ready.triangles, ready.times(timing::TURNS))
}

fn shown(drawing: &Drawing) {
    println!("{}", drawing.text());
    println!("{:?}", drawing.input);
    match Ready::new(drawing) {
        None => println!("refused"),
        Some(mut ready) => {
            let times = ready.times(timing::TURNS);
            let (t, (vertices, kept)) = (ready.triangles, ready.counts());
            println!("{t} soup triangles, {kept} kept, {vertices} vertices");
            println!("ours {:.0} ns, Rust {:.0} ns, Rust / ours {:.2}", times.ours, times.rust, times.ratio());
        }
    }
}
