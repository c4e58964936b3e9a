//! `oracle < cases > results`
use oracle::calls::Meshes;
use oracle::case::Case;
use std::io::{self, BufReader, BufWriter, Write};

fn main() -> io::Result<()> {
    let mut from = BufReader::with_capacity(1 << 20, io::stdin().lock());
    let mut to = BufWriter::with_capacity(1 << 20, io::stdout().lock());
    let mut meshes = Meshes::default();
    while let Some(case) = Case::read(&mut from)? {
        meshes.run(&case, &mut to)?;
    }
    to.flush()
}
