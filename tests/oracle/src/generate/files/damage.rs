//! Damage to a file's fields: what 9 and 10 are due for, and what is not noticed.
use super::drafts;
use super::fields::{self, Field};
use crate::fixture::*;
use crate::rng::Rng;

/// Damages a file in one way. No field is empty, before or after.
pub fn damage(rng: &mut Rng, file: &mut Vec<Field>) {
    let at = rng.below(file.len().max(1));
    match rng.below(16) {
        0 => insert(rng, file, unknown_field),
        1..=2 => insert(rng, file, unknown_byte),
        3..=4 => insert(rng, file, wrong_length),
        5 => file.push(head_only(rng)),
        6 => insert(rng, file, |rng| vec![fields::known_tag(rng), 0, 0]),
        7 => cut(rng, file),
        _ if file.is_empty() => (),
        8 => file[at][0] = fields::unknown_tag(rng),
        9 => file[at][0] = fields::known_tag(rng),
        10..=11 => resize(rng, &mut file[at]),
        12 => wrongly_claimed(rng, &mut file[at]),
        13 => flip(rng, &mut file[at]),
        14 => drop(file.remove(at)),
        _ => {
            let other = rng.below(file.len());
            file.swap(at, other);
        }
    }
}

fn insert(rng: &mut Rng, file: &mut Vec<Field>, made: impl Fn(&mut Rng) -> Field) {
    let at = rng.below(file.len() + 1);
    let field = made(rng);
    file.insert(at, field);
}

fn unknown_field(rng: &mut Rng) -> Field {
    let payload: Vec<u8> = (0..rng.below(20)).map(|_| rng.bits() as u8).collect();
    let mut field = fields::field(fields::unknown_tag(rng), &payload);
    if rng.one_in(3) {
        fields::claim_length(&mut field, rng.below(65_536));
    }
    field
}

/// A system, a mark or a kind that is unknown, in a payload whose length is right or not; or of length 0, where the byte is not read.
fn unknown_byte(rng: &mut Rng) -> Field {
    let tag = rng.between(DEFAULT_SYSTEM as usize, OPERATION as usize) as u8;
    let (byte, right) = match tag {
        OPERATION => (rng.pick(&[0, 9, 10, 16, 255]), rng.pick(&[9, 25, 33, 129])),
        _ => (rng.pick(&[2, 3, 16, 255]), 1),
    };
    let mut payload = vec![0; right];
    payload[0] = byte;
    let mut field = fields::field(tag, &payload);
    match rng.below(6) {
        0 => fields::claim_length(&mut field, 0),
        1 => fields::claim_length(&mut field, rng.below(65_536)),
        2 => resize(rng, &mut field),
        _ => (),
    }
    field
}

/// A known tag, and its first byte, with a payload of any length.
fn wrong_length(rng: &mut Rng) -> Field {
    let tag = fields::known_tag(rng);
    let lengths = [1, 2, 3, 4, 5, 8, 9, 10, 16, 17, 24, 25, 26, 32, 33, 40, 47, 48, 49, 56, 64, 65, 96, 128, 129];
    let length = if rng.one_in(4) { rng.between(1, 200) } else { rng.pick(&lengths) };
    let mut payload = vec![0; length];
    payload[0] = if tag == OPERATION { rng.between(1, 8) as u8 } else { rng.below(2) as u8 };
    fields::field(tag, &payload)
}

/// A tag at the end with no length, half a length, or a length and no payload.
fn head_only(rng: &mut Rng) -> Field {
    let tag = if rng.one_in(4) { fields::unknown_tag(rng) } else { fields::known_tag(rng) };
    let length = rng.pick(&[1, 4, 9, 48, 255, 256, 65_532, 65_535]) as u16;
    let [low, high] = length.to_le_bytes();
    [tag, low, high][..rng.between(1, 3)].to_vec()
}

/// The file ends within a field.
fn cut(rng: &mut Rng, file: &mut Vec<Field>) {
    if file.is_empty() {
        return;
    }
    let at = if rng.one_in(2) { file.len() - 1 } else { rng.below(file.len()) };
    file.truncate(at + 1);
    let length = file[at].len();
    let kept = match rng.below(4) {
        0 => length - 1,
        1 => rng.below(length.min(5)),
        _ => rng.below(length),
    };
    file[at].truncate(kept);
    file.retain(|field| !field.is_empty());
}

/// A payload shorter or longer than it was, the length with it. A list may get another item or lose one.
fn resize(rng: &mut Rng, field: &mut Field) {
    let length = field.len();
    let by = rng.pick(&[1, 1, 1, 2, 7, 8, 8, 16, 24, 48]);
    if rng.one_in(2) {
        field.truncate(length.saturating_sub(by).max(3.min(length)));
    } else {
        field.resize(length + by, 0);
    }
    fields::right_length(field);
}

/// Another length than that of the payload: the next field is read from another place, or the end is passed.
fn wrongly_claimed(rng: &mut Rng, field: &mut Field) {
    let length = field.len().saturating_sub(3);
    let other = match rng.below(8) {
        0 => 0,
        1 => length + 1,
        2 => length.saturating_sub(1),
        3 => length + 256,
        4 => length.swap_bytes() >> 48,
        5 => 65_535,
        6 => length + 8 * rng.between(1, 20),
        _ => rng.below(65_536),
    };
    fields::claim_length(field, other);
}

/// A bit of the tag, of the length, of the payload's first byte, or of any byte.
fn flip(rng: &mut Rng, field: &mut Field) {
    let at = if rng.one_in(2) { rng.below(field.len().min(4)) } else { rng.below(field.len()) };
    field[at] ^= 1 << rng.below(8);
}

/// Fields up to a length of the file: solids without triangles, settings, boxes, or all of them. Where 1, 2 or 5 bytes are missing, no fields fit.
pub fn fill(rng: &mut Rng, file: &mut Vec<Field>, length: usize) {
    let kind = rng.below(5);
    let mut missing = length.saturating_sub(file.iter().map(Vec::len).sum());
    while missing > 0 {
        let next = match (kind, missing) {
            (_, 0..3) => vec![0; missing],
            (_, 3 | 6 | 7 | 9) => fields::field(FIRST_SOLID + 1, &[]),
            (_, 4..12) => fields::byte(DEFAULT_SYSTEM, 0),
            (0, _) => fields::field(FIRST_SOLID + 1, &[]),
            (1, _) => fields::byte(rng.pick(&[DEFAULT_SYSTEM, OWN_SYSTEM, DEGREES]), rng.below(2) as u8),
            (2, 51 | 57..) => plain_box(),
            (3, 250..) => drafts::setting(rng),
            (_, 57..) if rng.one_in(40) => plain_box(),
            _ => fields::byte(OWN_SYSTEM, 0),
        };
        missing -= next.len();
        file.push(next);
    }
}

fn plain_box() -> Field {
    let payload: Vec<u8> = [0.0, 0.0, 0.0, 1.0, 2.0, 3.0f64].iter().flat_map(|x| x.to_le_bytes()).collect();
    fields::field(FIRST_SOLID, &payload)
}
