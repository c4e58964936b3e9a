//! `generate N SEED [all|calls|solids|outlines|mesh|files] > cases`
use oracle::generate::runs;
use std::io::{self, BufWriter, Write};

fn main() -> io::Result<()> {
    let args: Vec<String> = std::env::args().collect();
    let number = |i: usize| args.get(i).and_then(|a| a.parse::<u64>().ok());
    let (Some(n), Some(seed)) = (number(1), number(2)) else {
        eprintln!("usage: generate N SEED [all|calls|solids|outlines|mesh|files]");
        std::process::exit(2);
    };
    let kind = args.get(3).map_or("all", String::as_str);
    let mut to = BufWriter::with_capacity(1 << 20, io::stdout().lock());
    for case in runs(seed, kind).flatten().take(n as usize) {
        case.write(&mut to)?;
    }
    to.flush()
}
