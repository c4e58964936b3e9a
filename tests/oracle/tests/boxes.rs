//! The box of a mesh's record: which boxes are refused and when, and what each call leaves.
use oracle::calls::Meshes;
use oracle::case::*;
use oracle::refusals::Lent;

const NAN: f64 = f64::NAN;

/// A tetrahedron at the origin; its least coordinates are zeros of both signs.
fn tetrahedron() -> Case {
    let mut case = Case { what: LOAD, vertex_floats: 40, triangle_numbers: 40, ..Case::default() };
    case.list = vec![0.0, -0.0, 0.0, 1.0, 0.0, -0.0, 0.0, 2.0, 0.0, 0.0, 0.0, 3.0];
    case.triangles = vec![0, 2, 1, 0, 1, 3, 0, 3, 2, 1, 2, 3];
    (case.vertex_count, case.triangle_count) = (4, 4);
    case.claim(RIGHT);
    case
}

const RIGHT: Bounds = [0.0, 0.0, 0.0, 1.0, 2.0, 3.0];

/// The right box with another bound.
fn with(at: usize, bound: f64) -> Bounds {
    let mut bounds = RIGHT;
    bounds[at] = bound;
    bounds
}

fn wrong_boxes() -> Vec<Bounds> {
    let mut all = vec![[0.0; 6], EMPTY_BOX, [1.0, 2.0, 3.0, 0.0, 0.0, 0.0], [0.0, 0.0, 0.0, 1.0, 2.0, 4.0]];
    for at in 0..6 {
        let right = RIGHT[at];
        let bounds = [right.next_up(), right.next_down(), NAN, f64::INFINITY, f64::NEG_INFINITY];
        all.extend(bounds.map(|bound| with(at, bound)));
    }
    all
}

fn call(what: u8) -> Case {
    Case { what, ..Case::default() }
}

/// A transform by so many operations of one kind, each with the number given first.
fn transform(times: usize, kind: u8, number: f64) -> Case {
    let mut op = Op { kind, ..Op::default() };
    op.numbers[0] = number;
    Case { ops: vec![op; times], ..call(TRANSFORM) }
}

fn run(meshes: &mut Meshes, case: &Case) -> u32 {
    let mut result = Vec::new();
    meshes.run(case, &mut result).unwrap();
    u32::from_le_bytes(result[..4].try_into().unwrap())
}

/// A and B as loaded.
fn meshes(a: &Case, b: &Case) -> Meshes {
    let mut meshes = Meshes::default();
    for case in [b, &call(EXCHANGE), a] {
        assert_eq!(run(&mut meshes, case), 0);
    }
    meshes
}

fn claiming(bounds: Bounds) -> Case {
    let mut case = tetrahedron();
    case.claim(bounds);
    case
}

fn bits(mesh: &Lent) -> [u64; 6] {
    mesh.bounds.map(f64::to_bits)
}

/// The refusal of a call on A and B, which leaves both as they are where it is one.
fn refusal(a: &Case, b: &Case, case: &Case) -> u32 {
    let mut after = meshes(a, b);
    let before = after.clone();
    let refusal = run(&mut after, case);
    if refusal != 0 {
        assert_eq!((bits(&after.a), bits(&after.b)), (bits(&before.a), bits(&before.b)));
        assert_eq!((after.a.vertex_count, after.a.triangle_count), (before.a.vertex_count, before.a.triangle_count));
    }
    refusal
}

#[test]
fn wrong_boxes_are_refused() {
    let right = tetrahedron();
    let one = transform(1, 6, 2.0);
    for bounds in wrong_boxes() {
        let wrong = claiming(bounds);
        for case in [call(APPEND), call(FLIP), one.clone(), call(TRANSFORM), call(MEASURE)] {
            assert_eq!(refusal(&wrong, &right, &case), 8, "{bounds:?}, call {}", case.what);
            assert_eq!(refusal(&right, &right, &case), 0);
        }
        assert_eq!(refusal(&right, &wrong, &call(APPEND)), 8, "{bounds:?}");
        assert_eq!(refusal(&right, &wrong, &call(FLIP)), 0);
    }
}

/// The counted vertices count, with or without a triangle, and no others.
#[test]
fn the_counted_vertices_count() {
    let mut case = tetrahedron();
    (case.vertex_count, case.triangle_count) = (3, 1);
    assert_eq!(refusal(&case, &case, &call(FLIP)), 8);
    case.claim([0.0, 0.0, 0.0, 1.0, 2.0, 0.0]);
    assert_eq!(refusal(&case, &case, &call(FLIP)), 0);
    case.triangle_count = 0;
    assert_eq!(refusal(&case, &case, &call(FLIP)), 0);
    case.vertex_count = 0;
    for (bounds, expected) in [([0.0; 6], 8), (EMPTY_BOX, 0)] {
        case.claim(bounds);
        assert_eq!(refusal(&case, &case, &call(FLIP)), expected);
    }
}

/// −0.0 is right. An edit leaves +0.0, a transform without operations and a refused call leave what they got.
#[test]
fn negative_zeros() {
    let zeros = [-0.0, -0.0, 0.0, 1.0, 2.0, 3.0];
    let a = claiming(zeros);
    for case in [call(FLIP), transform(1, 6, 1.0)] {
        let mut after = meshes(&a, &a);
        assert_eq!(run(&mut after, &case), 0);
        assert_eq!(bits(&after.a), RIGHT.map(f64::to_bits));
    }
    for case in [call(TRANSFORM), transform(1, 3, 1e6), transform(17, 6, 1.0), call(MEASURE)] {
        let mut after = meshes(&a, &a);
        run(&mut after, &case);
        assert_eq!(bits(&after.a), zeros.map(f64::to_bits));
    }
    let mut after = meshes(&Case { vertex_floats: 24, triangle_numbers: 24, ..a.clone() }, &a);
    assert_eq!(run(&mut after, &call(APPEND)), 0);
    assert_eq!((bits(&after.a), bits(&after.b)), (RIGHT.map(f64::to_bits), zeros.map(f64::to_bits)));
    assert_eq!(run(&mut after, &call(APPEND)), 7);
}

/// The box directly after 1: after 8, 4 and 1, before 2, 5 and 7.
#[test]
fn the_order() {
    let (right, wrong) = (tetrahedron(), claiming([0.0; 6]));
    let mut not_finite = right.clone();
    not_finite.list[4] = NAN;
    let mut both = wrong.clone();
    both.list[4] = f64::INFINITY;
    for case in [call(APPEND), call(FLIP), call(TRANSFORM), call(MEASURE)] {
        assert_eq!(refusal(&both, &right, &case), 1);
    }
    assert_eq!([refusal(&not_finite, &wrong, &call(APPEND)), refusal(&wrong, &not_finite, &call(APPEND))], [1, 1]);
    let full = |case: &Case| Case { vertex_floats: 12, triangle_numbers: 12, ..case.clone() };
    let append = |a: &Case, b: &Case| refusal(&full(a), b, &call(APPEND));
    assert_eq!([append(&right, &right), append(&wrong, &right), append(&right, &wrong)], [7, 8, 8]);
    let operations = [transform(17, 6, 1.0), transform(1, 6, NAN), transform(1, 3, 1e6), transform(1, 6, f64::MAX)];
    assert_eq!(operations.clone().map(|case| refusal(&right, &right, &case)), [4, 1, 2, 5]);
    assert_eq!(operations.map(|case| refusal(&wrong, &right, &case)), [4, 1, 8, 8]);
}

/// Made, refused, appended, moved.
#[test]
fn what_calls_leave() {
    let mut case = Case { what: TESSELLATE, vertex_floats: 24, triangle_numbers: 36, work_numbers: 16, ..call(0) };
    case.numbers[..6].copy_from_slice(&[1.0, 2.0, 3.0, -0.0, 0.0, -1.0]);
    let mut meshes = meshes(&tetrahedron(), &tetrahedron());
    assert_eq!(run(&mut meshes, &case), 0);
    assert_eq!(bits(&meshes.a), [0.0, 0.0, -1.0, 1.0, 2.0, 3.0].map(f64::to_bits));
    assert_eq!(run(&mut meshes, &Case { segments: 1025, ..case.clone() }), 3);
    assert_eq!(bits(&meshes.a), EMPTY_BOX.map(f64::to_bits));
    assert_eq!(run(&mut meshes, &call(APPEND)), 0);
    assert_eq!(bits(&meshes.a), RIGHT.map(f64::to_bits));
    assert_eq!(run(&mut meshes, &transform(1, 6, -2.0)), 0);
    assert_eq!(bits(&meshes.a), [-2.0, -4.0, -6.0, 0.0, 0.0, 0.0].map(f64::to_bits));
    assert_eq!(run(&mut meshes, &call(APPEND)), 0);
    assert_eq!(bits(&meshes.a), [-2.0, -4.0, -6.0, 1.0, 2.0, 3.0].map(f64::to_bits));
}
