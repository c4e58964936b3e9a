//! What tests/fuzz, tests/stack and tests/bench share of the planner's call: crates/sizturga as C sees it, and files as bytes.
#[path = "../../sides/src/clock.rs"]
pub mod clock;
pub mod file;

unsafe extern "C" {
    fn sizturga_fixture(file: *const u8, file_length: usize, output: *mut u8, output_length: usize) -> u32;
}

/// The planner's call: 0 or the refusal's number.
pub fn fixture(file: &[u8], output: &mut [u8]) -> u32 {
    // Each pointer and length are those of a live slice, and the two do not overlap.
    unsafe { sizturga_fixture(file.as_ptr(), file.len(), output.as_mut_ptr(), output.len()) }
}

/// The longest file that is read.
pub const LONGEST: usize = 65_535;

/// Bytes of the output that a mesh takes.
pub const fn output_bytes(vertices: usize, triangles: usize) -> usize {
    8 + 24 * vertices + 12 * triangles
}

/// SIZTURGA_OUTPUT_MOST of include/sizturga.h: room for every file of a length.
pub const fn output_most(file_length: usize) -> usize {
    8 + file_length / 35 * (output_bytes(1024, 2048) - 8)
}

/// The counts of an output: vertices, triangles. It has at least 8 bytes.
pub fn counts(output: &[u8]) -> (usize, usize) {
    let word = |at: usize| u32::from_le_bytes(output[at..at + 4].try_into().expect("four bytes")) as usize;
    (word(0), word(4))
}
