//! A call with its areas and its checks.
use crate::areas::{Area, Place};
use crate::cost::{self, Cost};
use crate::{check, crash};
use oracle::fixture::plan;
use planner::{LONGEST, clock, fixture, output_most};

/// A call that is slower than its bound or than all before is made so often again; the least time counts.
const AGAIN: usize = 4;

pub struct Calls {
    file: Area,
    output: Area,
    pub count: usize,
    /// By the refusal's number.
    pub answers: [usize; 12],
    pub compared: usize,
    pub mismatches: usize,
    /// Nanoseconds, and the share of its bound, each with the call that has it.
    pub slowest: Slow,
    pub nearest: Slow,
}

/// The greatest of a figure, with the file and the output's length.
#[derive(Default)]
pub struct Slow {
    pub figure: f64,
    pub file: Vec<u8>,
    pub output_length: usize,
}

impl Slow {
    fn take(&mut self, figure: f64, file: &[u8], output_length: usize) {
        if figure > self.figure {
            *self = Slow { figure, file: file.to_vec(), output_length };
        }
    }
}

/// A call: how long the output is, where the two slices lie, what it may cost, and whether it is compared with the oracle.
pub struct Call {
    pub output_length: usize,
    pub places: [Place; 2],
    pub cost: Cost,
    pub compare: bool,
}

impl Calls {
    pub fn new() -> Calls {
        Calls {
            file: Area::new(2 * LONGEST),
            output: Area::new(output_most(2 * LONGEST)),
            count: 0,
            answers: [0; 12],
            compared: 0,
            mismatches: 0,
            slowest: Slow::default(),
            nearest: Slow::default(),
        }
    }

    /// Makes a call and checks it: the refusal's number and the output, or what does not hold.
    pub fn make(&mut self, file: &[u8], call: &Call) -> Result<(u32, &[u8]), String> {
        let n = call.output_length;
        let (refusal, mut least) = self.once(file, call)?;
        let bound = cost::bound(&call.cost, file.len(), n);
        for _ in 0..AGAIN {
            if least <= bound && least <= self.slowest.figure && least / bound <= self.nearest.figure {
                break;
            }
            least = least.min(self.once(file, call)?.1);
        }
        if least > bound {
            return Err(format!("{least:.0} ns where {bound:.0} ns is the bound, {:?}", call.cost));
        }
        self.slowest.take(least, file, n);
        self.nearest.take(least / bound, file, n);
        self.answers[refusal as usize] += 1;
        let output = self.output.lent(n, call.places[1]);
        if call.compare {
            self.compared += 1;
            same(file, refusal, output).inspect_err(|_| self.mismatches += 1)?;
        }
        Ok((refusal, output))
    }

    /// The call and its nanoseconds; guards, file and output are checked.
    fn once(&mut self, file: &[u8], call: &Call) -> Result<(u32, f64), String> {
        let mut lent = self.file.lend(file.len(), call.places[0]);
        let mut output = self.output.lend(call.output_length, call.places[1]);
        lent.bytes().copy_from_slice(file);
        output.bytes().fill(0xA5);
        crash::calling(lent.bytes(), call.output_length);
        let mut refusal = 0;
        let ns = clock::timed(|| refusal = fixture(lent.bytes(), output.bytes()));
        crash::done();
        self.count += 1;
        if !output.guards_hold() {
            return Err("a byte beside the output was written".into());
        }
        if !lent.guards_hold() || lent.bytes() != file {
            return Err("a byte of the file or beside it was written".into());
        }
        check::outcome(refusal, output.bytes())?;
        Ok((refusal, ns))
    }
}

/// Compares an outcome with the oracle's.
fn same(file: &[u8], refusal: u32, output: &[u8]) -> Result<(), String> {
    let mut other = vec![0xA5; output.len()];
    let expected = plan(file, &mut other);
    if expected != refusal {
        return Err(format!("the answer {refusal}, and the oracle's is {expected}"));
    }
    match other.iter().zip(output).position(|(a, b)| a != b) {
        Some(at) => Err(format!("the output differs from the oracle's at byte {at}")),
        None => Ok(()),
    }
}
