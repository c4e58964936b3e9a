//! Times crates/c_solids beside the unpatched Rust. `bench [REPETITIONS [ROW]]`: a line for each row whose name holds the text ROW: its name,
//! ns a triangle ours and of the Rust, and the Rust's over ours. Medians; ours and the Rust take turns.
mod inputs;
mod rows;

use rows::Side;
use sides::clock::{median, timed};

/// A sample lasts at least this long: small calls are repeated within it.
const SAMPLE_NS: f64 = 5e6;

fn main() {
    let mut args = std::env::args().skip(1);
    let repetitions: usize = args.next().map_or(9, |a| a.parse().expect("a number of repetitions"));
    let wanted = args.next().unwrap_or_default();
    println!("row\tours, ns a triangle\tRust, ns a triangle\tRust / ours");
    for (name, build) in rows::ROWS.iter().filter(|(name, _)| name.contains(&wanted)) {
        let mut row = build(name);
        let (ours, rust) = time(&mut row, repetitions.max(1));
        println!("{}\t{ours:.2}\t{rust:.2}\t{:.2}", row.name, rust / ours);
    }
}

/// Medians, ns a triangle.
fn time(row: &mut rows::Row, repetitions: usize) -> (f64, f64) {
    let (n, m) = (calls(&mut row.ours), calls(&mut row.rust));
    let (mut ours, mut rust) = (Vec::new(), Vec::new());
    for _ in 0..repetitions {
        ours.push(sample(&mut row.ours, n));
        rust.push(sample(&mut row.rust, m));
    }
    (median(ours) / row.triangles as f64, median(rust) / row.triangles as f64)
}

/// How many calls make a sample; also warms up.
fn calls(side: &mut Side) -> usize {
    let mut n = 1;
    while sample(side, n) * (n as f64) < SAMPLE_NS {
        n *= 2;
    }
    n
}

/// Nanoseconds a call, over n calls. A call that is prepared is timed by itself, without its preparation.
fn sample(side: &mut Side, n: usize) -> f64 {
    let spent = match side {
        Side::Again(call) => timed(|| (0..n).for_each(|_| call())),
        Side::Prepared { prepare, call } => (0..n)
            .map(|_| {
                prepare();
                timed(&mut *call)
            })
            .sum(),
    };
    spent / n as f64
}
