//! Compares the proved root with the hardware's, the case of its argument with IEEE 754's words in Rust, and the proved
//! sine and cosine with the text of docs/SCOPE.md in Rust.
//! `numbers [INPUTS [SEED]]`: prints counts, mismatches and times; the exit status is 1 where something differs.
mod inputs;
#[path = "../../oracle/src/rng.rs"]
#[allow(dead_code)]
mod rng;
#[path = "../../oracle/csx/stubs/sine.rs"]
mod sine;

use inputs::Group;
use rng::Rng;
use std::f64::consts::TAU;
use std::hint::black_box;
use std::num::FpCategory;
use std::time::Instant;

type Call = extern "C" fn(f64) -> f64;

unsafe extern "C" {
    safe fn sizturga_sqrt(x: f64) -> f64;
    safe fn sizturga_root_case(x: f64) -> u32;
    safe fn sizturga_sin(x: f64) -> f64;
    safe fn sizturga_cos(x: f64) -> f64;
}

#[inline(never)]
extern "C" fn hardware_sqrt(x: f64) -> f64 {
    x.sqrt()
}

#[inline(never)]
extern "C" fn text_sin(x: f64) -> f64 {
    sine::sin_cos(x).0
}

/// The cases in the order of `root_case::RootCase`.
const CASES: [&str; 6] = ["Zero", "NotFinite", "Negative", "Subnormal", "EvenExponent", "OddExponent"];

/// The place of x's case in `CASES`.
fn case_of(x: f64) -> usize {
    match x.classify() {
        FpCategory::Zero => 0,
        FpCategory::Nan | FpCategory::Infinite => 1,
        _ if x.is_sign_negative() => 2,
        FpCategory::Subnormal => 3,
        FpCategory::Normal if has_even_exponent(x) => 4,
        FpCategory::Normal => 5,
    }
}

/// Whether a normal number above zero has an even exponent: brought to 1 up to 4 by fours, exactly, it is below 2.
fn has_even_exponent(mut x: f64) -> bool {
    while x >= 4.0 {
        x *= 0.25;
    }
    while x < 1.0 {
        x *= 4.0;
    }
    x < 2.0
}

fn main() {
    let mut args = std::env::args().skip(1).map(|a| a.parse().expect("a number"));
    let (n, seed) = (args.next().unwrap_or(12_000_000), args.next().unwrap_or(1));
    // For each case the inputs, the roots that differ and the cases that differ.
    let mut by_case = [[0u64; 3]; CASES.len()];
    let root = |x: f64| {
        let case = case_of(x);
        let root_differs = !same(sizturga_sqrt(x), hardware_sqrt(x));
        let case_differs = sizturga_root_case(x) as usize != case;
        for (count, more) in by_case[case].iter_mut().zip([true, root_differs, case_differs]) {
            *count += more as u64;
        }
        !root_differs && !case_differs
    };
    let quarter_points = inputs::quarter_points();
    let (mut ties, mut at_quarters, mut zeros) = (0u64, 0u64, 0u64);
    let pair = |x: f64| {
        at_quarters += quarter_points.contains(&x) as u64;
        zeros += (x == 0.0) as u64;
        ties += ((x * inputs::H).fract().abs() == 0.5) as u64;
        let (sin, cos) = sine::sin_cos(x);
        same(sizturga_sin(x), sin) && same(sizturga_cos(x), cos)
    };
    let mut rng = Rng::new(seed);
    let mismatches =
        compare("sqrt", &inputs::ROOT, n, &mut rng, root) + compare("sin_cos", &inputs::SINE, n, &mut rng, pair);
    println!("sin_cos\tequal to a quarter point\t{at_quarters} of the inputs, {zeros} of them zeros");
    println!("sin_cos\texact ties of q\t{ties} of the inputs");
    times(&mut rng);
    for (name, [inputs, roots, cases]) in CASES.iter().zip(by_case) {
        println!("case\t{name}\t{inputs} inputs\t{roots} mismatches of the root\t{cases} of the case");
    }
    std::process::exit((mismatches > 0) as i32);
}

/// The same bits, or two NaNs.
fn same(x: f64, y: f64) -> bool {
    x.to_bits() == y.to_bits() || x.is_nan() && y.is_nan()
}

/// Runs the whole groups, and n inputs shared among the others; returns the mismatches.
fn compare(name: &str, groups: &[Group], n: u64, rng: &mut Rng, mut agrees: impl FnMut(f64) -> bool) -> u64 {
    let share = n.div_ceil(groups.iter().filter(|group| !group.whole).count() as u64);
    let (mut inputs, mut mismatches) = (0, 0);
    for group in groups {
        let (mut here, mut bad) = (0, 0);
        while here == 0 || here < share && !group.whole {
            for x in (group.draw)(rng) {
                here += 1;
                if !agrees(x) {
                    bad += 1;
                    if bad <= 5 {
                        println!("{name}: differs at {x:e}, bits {:016X}", x.to_bits());
                    }
                }
            }
        }
        println!("{name}\t{}\t{here} inputs\t{bad} mismatches", group.name);
        inputs += here;
        mismatches += bad;
    }
    println!("{name}\tall\t{inputs} inputs\t{mismatches} mismatches");
    mismatches
}

fn times(rng: &mut Rng) {
    let mut of_field = |n, a, b| -> Vec<f64> { (0..n).map(|_| inputs::with_field(rng, a, b)).collect() };
    let (normal, subnormal) = (of_field(4096, 1, 2046), of_field(4096, 0, 0));
    let (one_to_two, two_to_four) = (of_field(4096, 1023, 1023), of_field(4096, 1024, 1024));
    // So many that the processor cannot foretell which exponent is even.
    let many = of_field(65_536, 1, 2046);
    let angles: Vec<f64> = (0..4096).map(|_| 2000.0 * rng.unit() - 1000.0).collect();
    let on_cylinders: Vec<f64> = [32, 100, 1024].into_iter().flat_map(angles_of_a_cylinder).collect();
    let roots: [(&str, Call); 2] = [("sqrt, ours", sizturga_sqrt), ("sqrt, hardware", hardware_sqrt)];
    let sines: [(&str, Call); 2] = [("sin_cos, ours", sizturga_sin), ("sin_cos, the text in Rust", text_sin)];
    by_turns(roots, "", &normal, round::<false>);
    by_turns(roots, ", 65,536 numbers", &many, round::<false>);
    by_turns(roots, ", even exponent", &one_to_two, round::<false>);
    by_turns(roots, ", odd exponent", &two_to_four, round::<false>);
    by_turns(roots, ", subnormal", &subnormal, round::<false>);
    by_turns(roots, ", one after another", &normal, round::<true>);
    by_turns(sines, "", &angles, round::<false>);
    by_turns(sines, ", angles of cylinders", &on_cylinders, round::<false>);
}

/// The angles of a cylinder's points. Of 32, 100 or 1,024 of them four are quarter points.
fn angles_of_a_cylinder(segments: usize) -> impl Iterator<Item = f64> {
    (0..segments).map(move |i| TAU * i as f64 / segments as f64)
}

/// Prints nanoseconds a call of two functions: the least of the rounds, in which the two take turns.
fn by_turns(calls: [(&str, Call); 2], inputs_are: &str, inputs: &[f64], round: fn(Call, &[f64]) -> f64) {
    let mut least = [f64::INFINITY; 2];
    for _ in 0..1000 {
        for (least, (_, call)) in least.iter_mut().zip(calls) {
            *least = least.min(round(call, inputs));
        }
    }
    for (least, (name, _)) in least.iter().zip(calls) {
        println!("time\t{name}{inputs_are}\t{least:.1} ns a call");
    }
}

/// Nanoseconds a call. The function is hidden from the compiler and all results are used, so that every call is made.
/// With WAITS each argument takes up the last result's sign, which is plus, so that the call waits for that result.
fn round<const WAITS: bool>(call: Call, inputs: &[f64]) -> f64 {
    let call = black_box(call);
    let begin = Instant::now();
    let (mut last, mut sum) = (0u64, 0u64);
    for &x in inputs {
        let sign = if WAITS { last & 1 << 63 } else { 0 };
        last = call(f64::from_bits(x.to_bits() | sign)).to_bits();
        sum = sum.wrapping_add(last);
    }
    black_box(sum);
    begin.elapsed().as_nanos() as f64 / inputs.len() as f64
}
