//! `differ CASES RESULTS`: runs the cases again and names those whose results differ.
use oracle::calls::Meshes;
use oracle::case::Case;
use std::fs::File;
use std::io::{self, BufReader, Read};

fn main() -> io::Result<()> {
    let args: Vec<String> = std::env::args().collect();
    let [_, cases, results] = &args[..] else {
        eprintln!("usage: differ CASES RESULTS");
        std::process::exit(2);
    };
    let mut cases = BufReader::new(File::open(cases)?);
    let mut results = BufReader::new(File::open(results)?);
    let mut meshes = Meshes::default();
    let (mut number, mut differ) = (0, 0);
    while let Some(case) = Case::read(&mut cases)? {
        let mut expected = Vec::new();
        meshes.run(&case, &mut expected)?;
        let mut found = Vec::new();
        results.by_ref().take(expected.len() as u64).read_to_end(&mut found)?;
        if found != expected {
            differ += 1;
            if differ <= 5 {
                let at = expected.iter().zip(&found).take_while(|(e, f)| e == f).count();
                let show = |bytes: &[u8]| format!("{:02x?}", &bytes[at.min(bytes.len())..(at + 16).min(bytes.len())]);
                println!("case {number}: expected refusal {}, first difference at byte {at}", expected[0]);
                println!("  expected {}\n  found    {}\n  {case:?}", show(&expected), show(&found));
            }
        }
        number += 1;
    }
    println!("{differ} of {number} cases differ");
    Ok(())
}
