//! What must hold of the answer and the output of a call, whatever the file.
use planner::{counts, output_bytes};

/// Whether all bytes are zero.
pub fn zero(bytes: &[u8]) -> bool {
    let (chunks, rest) = bytes.as_chunks::<64>();
    chunks.iter().all(|chunk| chunk == &[0; 64]) && rest.iter().all(|&byte| byte == 0)
}

/// The first thing that does not hold.
pub fn outcome(refusal: u32, output: &[u8]) -> Result<(), String> {
    match refusal {
        0 => mesh(output),
        1..=5 | 7 | 9..=11 if zero(output) => Ok(()),
        1..=5 | 7 | 9..=11 => Err(format!("refused by {refusal}, and the output is not zero")),
        _ => Err(format!("the answer {refusal}, which is no refusal of this call")),
    }
}

/// The counts fit, numbers are below the vertex count and differ within a triangle, coordinates are finite, the rest is zero.
fn mesh(output: &[u8]) -> Result<(), String> {
    if output.len() < 8 {
        return Err("accepted without room for the counts".into());
    }
    let (vertices, triangles) = counts(output);
    let needed = output_bytes(vertices, triangles);
    if needed > output.len() {
        return Err(format!("{vertices} vertices and {triangles} triangles in {} bytes", output.len()));
    }
    let (floats, _) = output[8..8 + 24 * vertices].as_chunks::<8>();
    if !floats.iter().all(|bytes| f64::from_le_bytes(*bytes).is_finite()) {
        return Err("a coordinate is not finite".into());
    }
    let (numbers, _) = output[8 + 24 * vertices..needed].as_chunks::<4>();
    for triangle in numbers.chunks_exact(3) {
        let [a, b, c] = [0, 1, 2].map(|i| u32::from_le_bytes(triangle[i]) as usize);
        if a.max(b).max(c) >= vertices || a == b || b == c || c == a {
            return Err(format!("the triangle {a} {b} {c} over {vertices} vertices"));
        }
    }
    if zero(&output[needed..]) { Ok(()) } else { Err("the bytes behind the mesh are not zero".into()) }
}
