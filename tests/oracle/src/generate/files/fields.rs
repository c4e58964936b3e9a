//! Fields of a file as bytes.
use crate::case::*;
use crate::fixture::*;
use crate::rng::Rng;

pub type Field = Vec<u8>;

pub fn field(tag: u8, payload: &[u8]) -> Field {
    let mut field = vec![tag];
    field.extend((payload.len() as u16).to_le_bytes());
    field.extend(payload);
    field
}

/// Segments and rings; what 2 bytes do not hold becomes the most that they do.
pub fn options(segments: u32, rings: u32) -> Field {
    let count = |n: u32| (n.min(65_535) as u16).to_le_bytes();
    field(OPTIONS, &[count(segments), count(rings)].concat())
}

/// A field of one byte: a system or a mark.
pub fn byte(tag: u8, value: u8) -> Field {
    field(tag, &[value])
}

pub fn operation(op: &Op) -> Field {
    let mut payload = vec![op.kind];
    payload.extend(bytes(op.given()));
    field(OPERATION, &payload)
}

pub fn solid(case: &Case) -> Field {
    let mut payload = [case.norm_dir, case.rot_axis_dir][..DIRECTIONS[case.shape as usize]].to_vec();
    payload.extend(bytes(case.given()));
    if case.items().is_some() {
        payload.extend(bytes(&case.list));
    }
    field(FIRST_SOLID + case.shape, &payload)
}

fn bytes(floats: &[f64]) -> impl Iterator<Item = u8> + '_ {
    floats.iter().flat_map(|x| x.to_bits().to_le_bytes())
}

/// Writes the length anew.
pub fn claim_length(field: &mut Field, length: usize) {
    if field.len() >= 3 {
        field[1..3].copy_from_slice(&(length as u16).to_le_bytes());
    }
}

/// The length right for what follows.
pub fn right_length(field: &mut Field) {
    claim_length(field, field.len().saturating_sub(3));
}

pub fn unknown_tag(rng: &mut Rng) -> u8 {
    let any = rng.bits() as u8;
    let known = (OPTIONS..=OPERATION).contains(&any) || (FIRST_SOLID..=LAST_SOLID).contains(&any);
    if known || rng.one_in(2) { rng.pick(&[0x00, 0x06, 0x0F, 0x1A, 0x20, 0x80, 0x91, 0xFF]) } else { any }
}

pub fn known_tag(rng: &mut Rng) -> u8 {
    let at = rng.below(15) as u8;
    if at < 5 { OPTIONS + at } else { FIRST_SOLID + at - 5 }
}
