//! The planner's call on files that are made here byte by byte: what they draw, each refusal at its edge, the order of refusals, settings.
use csx::tessellate::TriMesh;
use oracle::calls::Meshes;
use oracle::case::*;
use oracle::reference::transformed;
use std::f64::consts::{FRAC_PI_2, PI, TAU};

const KNOWN_TAGS: [u8; 15] = [1, 2, 3, 4, 5, 0x10, 0x11, 0x12, 0x13, 0x14, 0x15, 0x16, 0x17, 0x18, 0x19];
/// An output for any file of these tests.
const ROOM: usize = 500_000;

fn field(tag: u8, payload: &[u8]) -> Vec<u8> {
    let length = payload.len();
    [&[tag, (length % 256) as u8, (length / 256) as u8], payload].concat()
}

/// A field of these first bytes and these floats.
fn numbers(tag: u8, first: &[u8], floats: &[f64]) -> Vec<u8> {
    let bytes: Vec<u8> = floats.iter().flat_map(|x| x.to_bits().to_le_bytes()).collect();
    field(tag, &[first, &bytes[..]].concat())
}

fn options(segments: u16, rings: u16) -> Vec<u8> {
    field(1, &[(segments % 256) as u8, (segments / 256) as u8, (rings % 256) as u8, (rings / 256) as u8])
}

const BOX_123: [f64; 6] = [0.0, 0.0, 0.0, 1.0, 2.0, 3.0];
const ENDS: [f64; 6] = [0.0, 0.0, 0.0, 0.0, 0.0, 1.0];

fn a_box() -> Vec<u8> {
    numbers(0x10, &[], &BOX_123)
}

fn sphere(numbers: [f64; 4]) -> Vec<u8> {
    self::numbers(0x12, &[], &numbers)
}

fn cylinder() -> Vec<u8> {
    numbers(0x14, &[], &[&ENDS[..], &[1.0]].concat())
}

/// Solids that get 1, 2, 3, 4, 5 and 7. That of 3 sets its segments, which hold.
fn refused_solid(refusal: u32) -> Vec<u8> {
    match refusal {
        1 => sphere([0.0, 0.0, 0.0, f64::NAN]),
        2 => numbers(0x18, &[0, 1], &[0.0, 1000f64.next_up(), 0.0]),
        3 => [options(1025, 3), a_box()].concat(),
        4 => numbers(0x16, &[0], &vec![0.0; 1 + 2 * 513]),
        5 => numbers(0x10, &[], &[-1e308, 0.0, 0.0, 1e308, 1.0, 1.0]),
        7 => numbers(0x11, &[], &BOX_123.repeat(129)),
        other => panic!("no solid for {other}"),
    }
}

/// The refusal and the output of a call; refused, the output is zero.
fn plan(file: &[u8], output_bytes: usize) -> (u32, Vec<u8>) {
    let case = Case { what: PLAN, file: Bytes(file.to_vec()), output_bytes: output_bytes as u32, ..Case::default() };
    let mut result = Vec::new();
    Meshes::default().run(&case, &mut result).unwrap();
    let (refusal, output) = (u32::from_le_bytes(result[..4].try_into().unwrap()), result[4..].to_vec());
    assert_eq!(output.len(), output_bytes);
    assert!(refusal == 0 || output.iter().all(|&byte| byte == 0));
    (refusal, output)
}

fn refusal(file: &[u8]) -> u32 {
    plan(file, 10_000).0
}

fn counts(file: &[u8]) -> (u32, u32) {
    let (refusal, output) = plan(file, ROOM);
    assert_eq!(refusal, 0);
    let word = |at: usize| u32::from_le_bytes(output[at..at + 4].try_into().unwrap());
    (word(0), word(4))
}

/// The output that these solids are to give, one after another.
fn expected(solids: &[Case]) -> Vec<u8> {
    let mut mesh = TriMesh::new();
    solids.iter().for_each(|solid| mesh.append(&transformed(solid)));
    let mut out = Vec::new();
    write_words(&mut out, &[mesh.vertices.len() as u32, mesh.triangles.len() as u32]).unwrap();
    mesh.vertices.iter().for_each(|vertex| write_floats(&mut out, &vertex.0).unwrap());
    mesh.triangles.iter().for_each(|triangle| write_words(&mut out, triangle).unwrap());
    out
}

fn assert_draws(file: &[u8], solids: &[Case]) {
    let right = expected(solids);
    assert_eq!(plan(file, right.len()), (0, right));
}

/// A solid of a case, with the settings that a file begins with.
fn solid(shape: u8, numbers: &[f64], list: &[f64]) -> Case {
    let mut case = Case { shape, segments: 32, sphere_rings: 16, list: list.to_vec(), ..Case::default() };
    case.numbers[..numbers.len()].copy_from_slice(numbers);
    case
}

fn op(kind: u8, numbers: &[f64]) -> Op {
    let mut op = Op { kind, ..Op::default() };
    op.numbers[..numbers.len()].copy_from_slice(numbers);
    op
}

#[test]
fn the_box() {
    let file = a_box();
    assert_eq!(file.len(), 51);
    let (refusal, output) = plan(&file, 344);
    assert_eq!(refusal, 0);
    assert_eq!(output[..8], [8, 0, 0, 0, 12, 0, 0, 0]);
    let first: Vec<f64> = output[8..104].chunks(8).map(|x| f64::from_le_bytes(x.try_into().unwrap())).collect();
    assert_eq!(first, [0.0, 0.0, 0.0, 0.0, 0.0, 3.0, 0.0, 2.0, 3.0, 0.0, 2.0, 0.0]);
    let numbers: Vec<u32> = output[200..224].chunks(4).map(|x| u32::from_le_bytes(x.try_into().unwrap())).collect();
    assert_eq!(numbers, [0, 1, 2, 0, 2, 3]);
    for more in [1, 2, 3, 4, 100] {
        let zeros = vec![0; more];
        assert_eq!(plan(&file, 344 + more), (0, [&output[..], &zeros].concat()));
    }
    for short in [343, 342, 340, 200, 8, 7, 1, 0] {
        assert_eq!(plan(&file, short).0, 7);
    }
}

/// Counts alone take eight bytes.
#[test]
fn nothing_drawn() {
    for file in [sphere([0.0; 4]), field(0x11, &[]), numbers(0x19, &[], &[1.0]), numbers(0x16, &[0], &[1.0])] {
        assert_eq!(plan(&file, 8), (0, vec![0; 8]));
        assert_eq!(plan(&file, 7).0, 7);
    }
}

/// Each solid with its directions, numbers and list; each after the other in one file.
#[test]
fn solids() {
    let outline = [1.0, 0.0, 3.0, 0.5, 2.0, 1.0, 2.5, 2.0, 1.0, 2.0];
    let boxes = [&BOX_123[..], &[5.0, 0.0, 0.0, 6.0, 1.0, 1.0]].concat();
    let points = [0.0, 0.0, 0.0, 1.0, 2.0, 0.0, 3.0, 1.0, 1.0];
    let shell = [&ENDS[..], &[2.0, 1.0]].concat();
    let single: [&[f64]; 10] = [
        &BOX_123,
        &[],
        &[1.0, 2.0, 3.0, 4.0],
        &[1.0, 2.0, 3.0, 4.0, 5.0],
        &shell[..7],
        &shell,
        &[1.5],
        &[1.5, 2.5],
        &[9.0, 0.5, 2.0],
        &[0.25],
    ];
    let lists: [&[f64]; 10] = [&[], &boxes, &[], &[], &[], &[], &outline, &outline, &outline, &points];
    let directions: [&[u8]; 10] = [&[], &[], &[], &[], &[], &[], &[1], &[255], &[2, 0], &[]];
    let (mut file, mut all) = (options(6, 4), Vec::new());
    for shape in 0..10 {
        let given = [single[shape], lists[shape]].concat();
        let field = numbers(0x10 + shape as u8, directions[shape], &given);
        let mut case = Case { segments: 6, sphere_rings: 4, ..solid(shape as u8, single[shape], lists[shape]) };
        case.norm_dir = directions[shape].first().copied().unwrap_or(0);
        case.rot_axis_dir = directions[shape].get(1).copied().unwrap_or(0);
        file.extend(&field);
        all.push(case.clone());
        assert_draws(&[options(6, 4), field].concat(), &[case]);
    }
    assert_draws(&file, &all);
}

/// Each kind of operation, in the order of the fields.
#[test]
fn operations() {
    let given: [&[f64]; 8] = [
        &[1.0, 2.0, 3.0],
        &[1.0, 1.0, 0.0, 0.5],
        &[0.25],
        &[0.5],
        &[0.75],
        &[2.0],
        &[1.0, -2.0, 3.0],
        &[1.0, 2.0, 3.0, 4.0, 5.0, 6.0, 7.0, 8.0, 0.0, 1.0, 0.0, 1.0, 0.0, 0.0, 0.0, 1.0],
    ];
    let mut file = Vec::new();
    let mut case = solid(BOX, &BOX_123, &[]);
    for (i, numbers) in given.iter().enumerate() {
        let kind = i as u8 + 1;
        file.extend(self::numbers(5, &[kind], numbers));
        case.ops.push(op(kind, numbers));
        let alone = Case { ops: vec![op(kind, numbers)], ..case.clone() };
        assert_draws(&[self::numbers(5, &[kind], numbers), a_box()].concat(), &[alone]);
    }
    assert_draws(&[file, a_box()].concat(), &[case]);
}

/// Segments and rings, and the default system, hold until they are replaced.
#[test]
fn what_holds() {
    let unit = || sphere([0.0, 0.0, 0.0, 1.0]);
    assert_eq!(counts(&unit()), (482, 960));
    assert_eq!(counts(&[options(3, 2), unit()].concat()), (5, 6));
    assert_eq!(counts(&[options(3, 2), unit(), unit()].concat()), (10, 12));
    assert_eq!(counts(&[options(9, 9), options(3, 2), unit(), options(4, 2), unit()].concat()), (11, 14));
    // Bytes of a count: 258 is 2 and 1.
    assert_eq!(counts(&[field(1, &[2, 1, 0, 0]), cylinder()].concat()), (518, 1032));

    let numbers = [2.0, FRAC_PI_2, 1.0, 1.0];
    let (point, plane) = (|| sphere(numbers), solid(SPHERE, &numbers, &[]));
    let turned = Case { default: 1, ..plane.clone() };
    assert_draws(&point(), std::slice::from_ref(&plane));
    assert_draws(&[field(2, &[1]), point(), point()].concat(), &[turned.clone(), turned.clone()]);
    let file = [field(2, &[0]), field(2, &[1]), point(), field(2, &[0]), point()].concat();
    assert_draws(&file, &[turned, plane]);
}

/// A system of its own, a degrees mark and operations serve one solid. A second system or mark replaces the first.
#[test]
fn what_serves_one_solid() {
    let numbers = [2.0, FRAC_PI_2, 1.0, 1.0];
    let (point, plane) = (|| sphere(numbers), solid(SPHERE, &numbers, &[]));
    let own = |own: u8| Case { own, ..plane.clone() };
    assert_draws(&[field(3, &[1]), point(), point()].concat(), &[own(2), plane.clone()]);
    assert_draws(&[field(3, &[1]), field(3, &[0]), point()].concat(), &[own(1)]);
    let file = [field(2, &[1]), field(3, &[0]), point(), point()].concat();
    assert_draws(&file, &[Case { default: 1, ..own(1) }, Case { default: 1, ..plane.clone() }]);
    // A multi-box is in the default system all the same.
    let multi = self::numbers(0x11, &[], &BOX_123);
    assert_draws(&[field(3, &[1]), multi].concat(), &[Case { own: 2, ..solid(MULTI_BOX, &[], &BOX_123) }]);

    let turn = || self::numbers(5, &[5], &[90.0]);
    let turned = |degrees: u8| Case { degrees, ops: vec![op(5, &[90.0])], ..solid(BOX, &BOX_123, &[]) };
    let (on, off) = (field(4, &[1]), field(4, &[0]));
    assert_draws(&[&on[..], &turn(), &a_box()].concat(), &[turned(1)]);
    assert_draws(&[&turn()[..], &on, &a_box()].concat(), &[turned(1)]);
    assert_draws(&[&off[..], &turn(), &a_box()].concat(), &[turned(0)]);
    assert_draws(&[&off[..], &turn(), &on, &a_box()].concat(), &[turned(1)]);
    assert_draws(&[&on[..], &turn(), &off, &a_box()].concat(), &[turned(0)]);
    let file = [&on[..], &turn(), &a_box(), &turn(), &a_box(), &a_box()].concat();
    assert_draws(&file, &[turned(1), turned(0), solid(BOX, &BOX_123, &[])]);
}

/// Fields after the last solid are judged by 9 and 10 alone.
#[test]
fn fields_after_the_last_solid() {
    let nan = numbers(5, &[6], &[f64::NAN]);
    for after in [options(65_535, 65_535), field(2, &[1]), field(3, &[1]), field(4, &[1]), nan.clone(), nan.repeat(20)]
    {
        assert_draws(&[a_box(), after].concat(), &[solid(BOX, &BOX_123, &[])]);
    }
    assert_eq!(refusal(&[a_box(), field(2, &[2])].concat()), 10);
    assert_eq!(refusal(&[a_box(), field(4, &[])].concat()), 9);
}

/// 1,285 boxes have 65,535 bytes. One byte more is too much, and nothing else is looked at.
#[test]
fn the_length_of_a_file() {
    let boxes = a_box().repeat(1285);
    assert_eq!(boxes.len(), 65_535);
    assert_eq!(counts(&boxes), (8 * 1285, 12 * 1285));
    assert_eq!(plan(&boxes, 8 + 336 * 1285 - 1).0, 7);
    assert_eq!(refusal(&[&boxes[..], &[0xFF]].concat()), 9);
    assert_eq!(refusal(&[0xFF; 65_535]), 10);
    assert_eq!(refusal(&[0xFF; 65_536]), 9);
    assert_eq!(refusal(&[&[0x11, 0, 0].repeat(21_845)[..], &[0x11, 0, 0]].concat()), 9);
    assert_eq!(counts(&[0x11, 0, 0].repeat(21_845)), (0, 0));
}

/// A length that its tag does not have, by one byte.
#[test]
fn the_length_of_a_field() {
    let singles = [48, 0, 32, 40, 56, 64, 9, 17, 26, 8];
    let items = [0, 48, 0, 0, 0, 0, 16, 16, 16, 24];
    for (shape, (single, item)) in singles.into_iter().zip(items).enumerate() {
        let of = |length: usize| refusal(&field(0x10 + shape as u8, &vec![0; length]));
        assert_eq!(of(single), 0, "shape {shape}");
        assert_eq!(of(single + 1), 9, "shape {shape}");
        if single > 0 {
            assert_eq!([of(single - 1), of(0)], [9, 9], "shape {shape}");
        }
        if item > 0 {
            let lengths = [single + item - 8, single + item - 1, single + item, single + item + 1, single + 2 * item];
            assert_eq!(lengths.map(of), [9, 9, 0, 9, 0], "shape {shape}");
        } else {
            assert_eq!(of(single + 8), 9, "shape {shape}");
        }
    }
    let set = |tag: u8, first: u8, length: usize| {
        let mut payload = vec![0; length];
        payload.iter_mut().take(1).for_each(|byte| *byte = first);
        refusal(&[field(tag, &payload), a_box()].concat())
    };
    assert_eq!([0, 2, 3, 4, 5, 8].map(|length| set(1, 0, length)), [9, 9, 9, 0, 9, 9]);
    for tag in 2..=4 {
        assert_eq!([0, 1, 2, 9].map(|length| set(tag, 1, length)), [9, 0, 9, 9]);
    }
    assert_eq!(set(5, 0, 0), 9);
    for (kind, floats) in [(1, 3), (2, 4), (3, 1), (4, 1), (5, 1), (6, 1), (7, 3), (8, 16)] {
        let right = 1 + 8 * floats;
        let lengths = [1, right - 8, right - 1, right, right + 1, right + 8];
        assert_eq!(lengths.map(|length| set(5, kind, length)), [9, 9, 9, 0, 9, 9], "kind {kind}");
    }
}

/// A field that the file ends in.
#[test]
fn fields_past_the_end() {
    let file = [options(8, 4), field(2, &[0]), numbers(5, &[6], &[2.0]), a_box()].concat();
    let ends = [7, 11, 23, 74];
    assert_eq!(file.len(), 74);
    for length in 0..74 {
        let found = refusal(&file[..length]);
        assert_eq!(found, if length == 0 || ends.contains(&length) { 11 } else { 9 }, "{length} bytes");
    }
    assert_eq!(refusal(&file), 0);
    assert_eq!(refusal(&[a_box(), vec![0x11, 0xFF, 0xFF]].concat()), 9);
}

/// Every tag, alone and with a length.
#[test]
fn tags() {
    for tag in 0..=255u8 {
        let known = KNOWN_TAGS.contains(&tag);
        for bytes in [&[tag][..], &[tag, 7], &[tag, 255, 255], &[tag, 255, 255, 1]] {
            assert_eq!(refusal(bytes), if known { 9 } else { 10 }, "{bytes:02x?}");
            assert_eq!(refusal(&[&a_box()[..], bytes].concat()), if known { 9 } else { 10 }, "{bytes:02x?}");
        }
    }
}

/// Every system, mark and kind; 10 comes before 9 where the byte is there.
#[test]
fn first_bytes() {
    for tag in 2..=5u8 {
        for byte in 0..=255u8 {
            let known = if tag == 5 { (1..=8).contains(&byte) } else { byte < 2 };
            let of = |bytes: &[u8]| refusal(&[bytes, &a_box()].concat());
            let nine_or_ten = if known { 9 } else { 10 };
            // Two bytes too many, and a length past the end.
            assert_eq!(of(&field(tag, &[byte, 0, 0])), nine_or_ten);
            assert_eq!(of(&[tag, 255, 255, byte]), nine_or_ten);
            assert_eq!(refusal(&[tag, 2, 0, byte]), nine_or_ten);
            // The byte belongs to no payload.
            assert_eq!(of(&[tag, 0, 0, byte]), 9);
            assert_eq!(refusal(&[tag, 1, 0]), 9);
            if tag < 5 {
                assert_eq!(of(&field(tag, &[byte])), if known { 0 } else { 10 });
            }
        }
    }
    assert_eq!(refusal(&[field(5, &[0; 9]), a_box()].concat()), 10);
    assert_eq!(refusal(&[numbers(5, &[9], &[0.0]), a_box()].concat()), 10);
}

/// The first field that is refused counts, then 11, then the solids one after another, and the output at last.
#[test]
fn the_order() {
    let (nine, ten) = (field(2, &[0, 0]), field(2, &[2]));
    let both = [&nine[..], &ten].concat();
    assert_eq!([refusal(&both), refusal(&[&ten[..], &nine].concat())], [9, 10]);
    assert_eq!(refusal(&[&a_box()[..], &ten, &nine].concat()), 10);
    assert_eq!([refusal(&[]), refusal(&options(1025, 0)), refusal(&numbers(5, &[6], &[f64::NAN]))], [11, 11, 11]);
    assert_eq!(refusal(&[options(8, 8), nine.clone()].concat()), 9);
    for first in [1, 2, 3, 4, 5, 7] {
        assert_eq!(refusal(&refused_solid(first)), first);
        assert_eq!(plan(&refused_solid(first), 0).0, first);
        assert_eq!(refusal(&[a_box(), refused_solid(first)].concat()), first);
        assert_eq!(refusal(&[refused_solid(first), nine.clone()].concat()), 9);
        assert_eq!(refusal(&[refused_solid(first), ten.clone()].concat()), 10);
        for second in [1, 2, 3, 4, 5, 7] {
            assert_eq!(refusal(&[refused_solid(first), refused_solid(second)].concat()), first);
            assert_eq!(plan(&[a_box(), refused_solid(first), refused_solid(second)].concat(), 100).0, first);
        }
    }
    assert_eq!([plan(&[], 0).0, plan(&nine, 0).0, plan(&ten, 0).0], [11, 9, 10]);
}

/// In one solid: 3, 4, 1, 2, 5, 7, and 5 after the operations.
#[test]
fn the_order_in_one_solid() {
    let large = numbers(5, &[6], &[f64::MAX]).repeat(2);
    let far = numbers(5, &[3], &[1000f64.next_up()]);
    let nan = numbers(5, &[6], &[f64::NAN]);
    let long = |first: f64| numbers(0x11, &[], &[&[first], &vec![1.0; 6 * 257 - 1][..]].concat());
    let of = |parts: &[&[u8]]| refusal(&parts.concat());
    assert_eq!(of(&[&options(3, 1025), &nan, &long(f64::NAN)]), 3);
    assert_eq!(of(&[&nan, &long(f64::NAN)]), 4);
    assert_eq!(of(&[&nan.repeat(17), &a_box()]), 4);
    assert_eq!(of(&[&far, &nan, &a_box()]), 1);
    assert_eq!(of(&[&far, &refused_solid(5)]), 2);
    let five_and_seven = numbers(0x11, &[], &[&BOX_123.repeat(129)[..], &[-1e308, 0.0, 0.0, 1e308, 1.0, 1.0]].concat());
    assert_eq!(of(&[&five_and_seven]), 5);
    assert_eq!(of(&[&large, &refused_solid(7)]), 7);
    assert_eq!(of(&[&large, &a_box()]), 5);
}

#[test]
fn limits_of_a_solid() {
    let scaled = |n: usize| refusal(&[numbers(5, &[6], &[1.0]).repeat(n), a_box()].concat());
    assert_eq!([scaled(16), scaled(17), scaled(300)], [0, 4, 4]);
    let listed = |tag: u8, first: &[u8], floats: usize| refusal(&numbers(tag, first, &vec![0.0; floats]));
    assert_eq!([listed(0x11, &[], 6 * 256), listed(0x11, &[], 6 * 257)], [0, 4]);
    assert_eq!([listed(0x16, &[0], 1 + 2 * 512), listed(0x16, &[0], 1 + 2 * 513)], [0, 4]);
    assert_eq!([listed(0x17, &[0], 2 + 2 * 512), listed(0x17, &[0], 2 + 2 * 513)], [0, 4]);
    assert_eq!([listed(0x18, &[0, 1], 3 + 2 * 512), listed(0x18, &[0, 1], 3 + 2 * 513)], [0, 4]);
    assert_eq!([listed(0x19, &[], 1 + 3 * 256), listed(0x19, &[], 1 + 3 * 257)], [0, 4]);
    let round = |segments: u16, rings: u16| refusal(&[options(segments, rings), a_box()].concat());
    assert_eq!([round(1024, 1024), round(1025, 0), round(0, 1025), round(65_535, 65_535)], [0, 3, 3, 3]);
    let turned =
        |degrees: u8, angle: f64| refusal(&[field(4, &[degrees]), numbers(5, &[4], &[angle]), a_box()].concat());
    assert_eq!([turned(0, 1000.0), turned(0, 1000f64.next_up()), turned(1, 1001.0), turned(1, 57_296.0)], [0, 2, 0, 2]);
}

/// 1,024 vertices and 2,048 triangles are taken; more of either are not.
#[test]
fn places_of_a_solid() {
    let round = |segments: u16| counts(&[options(segments, 3), cylinder()].concat());
    assert_eq!(round(511), (1024, 2044));
    assert_eq!(refusal(&[options(512, 3), cylinder()].concat()), 7);
    let shell = |segments: u16| [options(segments, 3), numbers(0x15, &[], &[&ENDS[..], &[2.0, 1.0]].concat())].concat();
    assert_eq!(counts(&shell(256)), (1024, 2048));
    assert_eq!(plan(&shell(256), 8 + 24 * 1024 + 12 * 2048 - 1).0, 7);
    assert_eq!(refusal(&shell(257)), 7);
    // Two full solids are within the places: each has its own.
    assert_eq!(counts(&[shell(256), shell(256)].concat()), (2048, 4096));
    // A turned outline that meets itself in a corner: 7 vertices and 16 triangles a segment.
    let corners = [2.0, 1.0, 3.0, 2.0, 4.0, 1.0, 5.0, 2.0, 4.0, 3.0, 3.0, 2.0, 2.0, 3.0, 1.0, 2.0];
    let turned = |n: u16| [options(n, 3), numbers(0x18, &[0, 1], &[&[0.0, 0.0, TAU], &corners[..]].concat())].concat();
    assert_eq!(counts(&turned(128)), (7 * 128, 2048));
    assert_eq!(refusal(&turned(129)), 7);
}

/// Infinities and NaNs of every pattern get 1, wherever they stand.
#[test]
fn not_finite() {
    let quiet = 0x7FF8_0000_0000_0000;
    let infinity = 0x7FF0_0000_0000_0000;
    for bits in [quiet, infinity, infinity | 1, infinity | 1 << 51 | 5, u64::MAX >> 1, u64::MAX, infinity | 1 << 63] {
        let x = f64::from_bits(bits);
        for at in 0..6 {
            let mut numbers = BOX_123;
            numbers[at] = x;
            assert_eq!(refusal(&self::numbers(0x10, &[], &numbers)), 1);
        }
        assert_eq!(refusal(&numbers(0x18, &[0, 1], &[x, 0.0, 0.0])), 1);
        assert_eq!(refusal(&numbers(0x19, &[], &[1.0, 0.0, x, 0.0])), 1);
        assert_eq!(refusal(&[numbers(5, &[1], &[0.0, 0.0, x]), a_box()].concat()), 1);
    }
    assert_eq!(refusal(&numbers(0x10, &[], &[0.0, 0.0, 0.0, f64::MAX, f64::MAX, -f64::MAX])), 0);
}

/// Angles of a file's points are in radians whatever the mark.
#[test]
fn degrees_are_for_operations() {
    let point = [2.0, PI, 1.0, 1.0];
    let file = [field(4, &[1]), field(3, &[1]), sphere(point)].concat();
    assert_draws(&file, &[Case { own: 2, ..solid(SPHERE, &point, &[]) }]);
    assert_eq!(refusal(&[field(4, &[1]), field(3, &[1]), sphere([2.0, 1001.0, 1.0, 1.0])].concat()), 2);
}

/// The call leaves both meshes, and reads nothing but the file of its case; other calls read nothing of a file.
#[test]
fn the_case() {
    let mut load = Case { what: LOAD, vertex_floats: 9, triangle_numbers: 3, ..Case::default() };
    (load.list, load.triangles) = (vec![0.0, 0.0, 0.0, 1.0, 0.0, 0.0, 0.0, 1.0, 0.0], vec![0, 1, 2]);
    (load.vertex_count, load.triangle_count) = (3, 1);
    load.claim([0.0, 0.0, 0.0, 1.0, 1.0, 0.0]);
    let mut call = Case { what: PLAN, file: Bytes(a_box()), output_bytes: 344, ..load.clone() };
    call.ops = vec![op(8, &[1.0])];
    let mut flip = Case { what: FLIP, ..Case::default() };
    (flip.file, flip.output_bytes) = (Bytes(vec![1, 2, 3]), 9);
    let cases = [load, call, flip];
    let mut bytes = Vec::new();
    cases.iter().for_each(|case| case.write(&mut bytes).unwrap());
    assert_eq!(bytes.len(), 3 * 144 + 2 * (9 * 8 + 3 * 4) + 136 + 51 + 3);
    let (mut from, mut meshes) = (&bytes[..], Meshes::default());
    let mut read = Vec::new();
    while let Some(case) = Case::read(&mut from).unwrap() {
        let mut result = Vec::new();
        meshes.run(&case, &mut result).unwrap();
        read.push((case, result));
    }
    assert_eq!(read[1].0.file, cases[1].file);
    assert_eq!(read[1].1, [vec![0; 4], plan(&a_box(), 344).1].concat());
    assert_eq!(meshes.a.triangles, [0, 2, 1]);
    assert_eq!((meshes.a.vertex_count, meshes.b.vertex_count), (3, 0));
}
