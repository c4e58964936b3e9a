//! The slowest drawings of each solid, and the bars.
use crate::drawings::{Bars, Drawing, Kind};
use crate::timing::{Ready, TURNS, Times};
use sides::clock::median;

/// A drawing takes at most so many medians of its solid, a soup triangle.
const MOST_MEDIANS: f64 = 10.0;

/// A drawing by its number.
#[derive(Clone, Copy)]
struct Measured {
    number: usize,
    /// Ours: ns a soup triangle; a call, where the row is not held to medians.
    ns: f64,
    ratio: f64,
}

pub struct Table {
    kind: &'static Kind,
    seed: u64,
    pub refused: usize,
    rows: Vec<Measured>,
}

impl Table {
    pub fn new(kind: &'static Kind, seed: u64) -> Table {
        Table { kind, seed, refused: 0, rows: Vec::new() }
    }

    fn measured(&self, number: usize, triangles: usize, times: &Times) -> Measured {
        let by = if self.kind.bars == Bars::Both { triangles as f64 } else { 1.0 };
        Measured { number, ns: times.ours / by, ratio: times.ratio() }
    }

    pub fn push(&mut self, number: usize, triangles: usize, times: &Times) {
        self.rows.push(self.measured(number, triangles, times));
    }

    /// The first by an order, confirmed: what stands first is measured again until it stays there.
    fn first(&mut self, key: fn(&Measured) -> f64) -> Measured {
        let mut confirmed: Vec<usize> = Vec::new();
        loop {
            let at = (0..self.rows.len()).min_by(|&a, &b| key(&self.rows[a]).total_cmp(&key(&self.rows[b]))).unwrap();
            let row = self.rows[at];
            if confirmed.contains(&row.number) || confirmed.len() > 50 {
                return row;
            }
            confirmed.push(row.number);
            let drawing = Drawing::random(self.seed, row.number);
            let mut ready = Ready::new(&drawing).expect("it was accepted before");
            self.rows[at] = self.measured(row.number, ready.triangles, &ready.times(TURNS));
        }
    }
}

/// Prints all tables; whether every bar is met.
pub fn print(tables: &mut [Table], n: usize, seed: u64) -> bool {
    println!("\nsolid\tdrawings\trefused\tmedian ns a soup triangle\tworst\tworst / median\tleast Rust / ours");
    let (mut slower, mut uneven) = (Vec::new(), Vec::new());
    let (mut most, mut least) = (Vec::new(), Vec::new());
    for table in tables.iter_mut().filter(|t| !t.rows.is_empty()) {
        let (worst, low) = (table.first(|m| -m.ns), table.first(|m| m.ratio));
        let middle = median(table.rows.iter().map(|m| m.ns).collect());
        let (name, bars) = (table.kind.name, table.kind.bars);
        let (count, refused, times) = (table.rows.len(), table.refused, worst.ns / middle);
        let unit = if bars == Bars::Both { "" } else { " a call" };
        println!("{name}\t{count}\t{refused}\t{middle:.1}{unit}\t{:.1}\t{times:.2}\t{:.2}", worst.ns, low.ratio);
        let said = |m: Measured| format!("no. {}: {}", m.number, Drawing::random(seed, m.number).text());
        println!("  worst {}\n  least {}", said(worst), said(low));
        if bars != Bars::None {
            least.push((low.ratio, said(low)));
            slower.extend((low.ratio < 1.0).then_some(name));
        }
        if bars == Bars::Both {
            most.push((worst.ns, said(worst)));
            uneven.extend((times > MOST_MEDIANS).then_some(name));
        }
    }
    println!("\nover all {n} drawings, seed {seed}, in the rows that are held to a bar:");
    if let Some((ns, text)) = most.iter().max_by(|a, b| a.0.total_cmp(&b.0)) {
        println!("worst ns a soup triangle: {ns:.1}, {text}");
    }
    if let Some((ratio, text)) = least.iter().min_by(|a, b| a.0.total_cmp(&b.0)) {
        println!("least Rust / ours: {ratio:.2}, {text}");
    }
    bar("never slower than the Rust", &slower) & bar("never above 10 medians of its solid a soup triangle", &uneven)
}

fn bar(what: &str, missed: &[&str]) -> bool {
    println!("{what}: {}", if missed.is_empty() { "met".into() } else { format!("MISSED by {}", missed.join(", ")) });
    missed.is_empty()
}
