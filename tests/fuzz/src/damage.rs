//! Damage to the bytes of a file.
use oracle::rng::Rng;
use planner::file::File;
use std::ops::Range;

/// Damages a file in one way to three.
pub fn damage(rng: &mut Rng, file: &mut File) {
    for _ in 0..rng.pick(&[1, 1, 1, 2, 3]) {
        one(rng, &mut file.0);
    }
}

fn one(rng: &mut Rng, bytes: &mut Vec<u8>) {
    if bytes.is_empty() {
        bytes.push(rng.bits() as u8);
        return;
    }
    let at = rng.below(bytes.len());
    match rng.below(10) {
        0 => bytes[at] ^= 1 << rng.below(8),
        1 => bytes.truncate(at),
        2 => insert(rng, bytes, at),
        3 => drop(bytes.drain(at..(at + rng.between(1, 9)).min(bytes.len()))),
        4 => bytes[at] = rng.bits() as u8,
        5 => head(rng, bytes),
        6 => length(rng, bytes),
        7 => shuffle(rng, bytes),
        8 => repeat(rng, bytes),
        _ => float(rng, bytes),
    }
}

fn insert(rng: &mut Rng, bytes: &mut Vec<u8>, at: usize) {
    let more: Vec<u8> = (0..rng.between(1, 9)).map(|_| rng.bits() as u8).collect();
    bytes.splice(at..at, more);
}

/// The fields as their lengths lead from one to the next; the last one may be broken.
fn fields(bytes: &[u8]) -> Vec<Range<usize>> {
    let mut out = Vec::new();
    let mut at = 0;
    while at < bytes.len() {
        let length = bytes.get(at + 1..at + 3).map_or(0, |two| u16::from_le_bytes([two[0], two[1]]) as usize);
        let end = (at + 3 + length).min(bytes.len());
        out.push(at..end);
        at = end;
    }
    out
}

fn some_field(rng: &mut Rng, bytes: &[u8]) -> Range<usize> {
    let all = fields(bytes);
    all[rng.below(all.len())].clone()
}

/// Another tag, or another first byte of the payload.
fn head(rng: &mut Rng, bytes: &mut [u8]) {
    let field = some_field(rng, bytes);
    let at = field.start + rng.pick(&[0, 3]);
    if at < field.end {
        bytes[at] = rng.pick(&[0, 1, 2, 3, 4, 5, 6, 8, 9, 0x0F, 0x10, 0x11, 0x12, 0x16, 0x18, 0x19, 0x1A, 0xFF]);
    }
}

/// Another length of a field, and at times of its payload too.
fn length(rng: &mut Rng, bytes: &mut Vec<u8>) {
    let field = some_field(rng, bytes);
    if field.len() < 3 {
        return;
    }
    let payload = field.len() - 3;
    let by = rng.pick(&[1, 2, 7, 8, 16, 24, 48]);
    let other = match rng.below(6) {
        0 => 0,
        1 => rng.bits() as usize % 65_536,
        2 => 65_535,
        3 => payload.saturating_sub(by),
        _ => (payload + by).min(65_535),
    };
    bytes[field.start + 1..field.start + 3].copy_from_slice(&(other as u16).to_le_bytes());
    if rng.one_in(2) && other < payload + 100 {
        let content = vec![0; other.saturating_sub(payload)];
        bytes.splice(field.start + 3 + payload.min(other)..field.end, content);
    }
}

/// Two fields exchanged, or all in another order.
fn shuffle(rng: &mut Rng, bytes: &mut Vec<u8>) {
    let mut order = fields(bytes);
    for _ in 0..if rng.one_in(2) { 1 } else { order.len() } {
        let (i, j) = (rng.below(order.len()), rng.below(order.len()));
        order.swap(i, j);
    }
    *bytes = order.into_iter().flat_map(|field| bytes[field].to_vec()).collect();
}

/// A field once more, or no longer.
fn repeat(rng: &mut Rng, bytes: &mut Vec<u8>) {
    let field = some_field(rng, bytes);
    let content = if rng.one_in(2) { Vec::new() } else { [&bytes[field.clone()], &bytes[field.clone()]].concat() };
    bytes.splice(field, content);
}

/// Eight bytes that are an infinity, a NaN, a huge or a tiny number.
fn float(rng: &mut Rng, bytes: &mut [u8]) {
    let field = some_field(rng, bytes);
    let odd = rng.pick(&[f64::INFINITY, f64::NAN, -1e308, 5e-324, 1000.5, -0.0]);
    let places = field.len().saturating_sub(3) / 8;
    if places > 0 {
        let at = field.end - 8 * rng.between(1, places);
        bytes[at..at + 8].copy_from_slice(&odd.to_le_bytes());
    }
}
