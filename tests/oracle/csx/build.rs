//! Copies the originals to OUT_DIR, adds stubs for the modules that are not there, and patches two things:
//! sine and cosine, and the start of sums. Stops where a text to patch is not found exactly once.
//! With the feature `plain` nothing is patched.

use std::path::{Path, PathBuf};
use std::{env, fs};

/// The originals, below src/.
const ORIGINALS: [&str; 12] = [
    "coords.rs",
    "io/dom.rs",
    "math.rs",
    "param.rs",
    "primitives/basic.rs",
    "primitives/curve.rs",
    "primitives/mod.rs",
    "primitives/poly.rs",
    "primitives/polyhedron.rs",
    "primitives/user.rs",
    "tessellate.rs",
    "transform.rs",
];

/// Stubs of ours, and the place of each in the tree.
const STUBS: [(&str, &str); 9] = [
    ("added.rs", "added.rs"),
    ("bvh.rs", "primitives/bvh.rs"),
    ("error.rs", "error.rs"),
    ("expr.rs", "expr.rs"),
    ("geom.rs", "primitives/geom.rs"),
    ("io.rs", "io/mod.rs"),
    ("properties.rs", "properties.rs"),
    ("sine.rs", "sine.rs"),
    ("structure.rs", "structure.rs"),
];

const MODULES: [&str; 13] = [
    "added.rs",
    "coords.rs",
    "error.rs",
    "expr.rs",
    "io/mod.rs",
    "math.rs",
    "param.rs",
    "primitives/mod.rs",
    "properties.rs",
    "sine.rs",
    "structure.rs",
    "tessellate.rs",
    "transform.rs",
];

/// A file, a text that stands in it once, and what replaces it.
type Patch = (&'static str, &'static str, &'static str);

/// First patch: the sine and cosine of docs/SCOPE.md.
const SINE: [Patch; 6] = [
    ("math.rs", "angle.sin_cos()", "crate::sine::sin_cos(angle)"),
    ("coords.rs", "p[1].sin_cos()", "crate::sine::sin_cos(p[1])"),
    ("tessellate.rs", "p[1].sin_cos()", "crate::sine::sin_cos(p[1])"),
    ("tessellate.rs", "angle(k).sin_cos()", "crate::sine::sin_cos(angle(k))"),
    ("tessellate.rs", "(PI * i as f64 / nt as f64).sin_cos()", "crate::sine::sin_cos(PI * i as f64 / nt as f64)"),
    (
        "tessellate.rs",
        "(TAU * (j % np) as f64 / np as f64).sin_cos()",
        "crate::sine::sin_cos(TAU * (j % np) as f64 / np as f64)",
    ),
];

/// Second patch: sums start at +0.0.
const SUMS: [Patch; 4] = [
    ("math.rs", "self.0[i][k] * o.0[k][j]).sum()", "self.0[i][k] * o.0[k][j]).fold(0.0, |s, x| s + x)"),
    (
        "tessellate.rs",
        "a.dot(b.cross(*c)))\n            .sum::<f64>()",
        "a.dot(b.cross(*c)))\n            .fold(0.0, |s: f64, x| s + x)",
    ),
    (
        "tessellate.rs",
        "(*c - *a).norm() / 2.0)\n            .sum()",
        "(*c - *a).norm() / 2.0)\n            .fold(0.0, |s, x| s + x)",
    ),
    (
        "tessellate.rs",
        "a.0 * b.1 - b.0 * a.1\n        })\n        .sum::<f64>()",
        "a.0 * b.1 - b.0 * a.1\n        })\n        .fold(0.0, |s: f64, x| s + x)",
    ),
];

/// Not a patch of results: the clipper reports each corner that it removes, for the added count of docs/SCOPE.md, S21.
const COUNT: [Patch; 2] = [
    (
        "tessellate.rs",
        "idx.remove(k);\n                clipped = true;",
        "idx.remove(k);\n                crate::added::count_removed();\n                clipped = true;",
    ),
    (
        "tessellate.rs",
        "}) {\n                idx.remove(k);\n            } else {",
        "}) {\n                idx.remove(k);\n                crate::added::count_removed();\n            } else {",
    ),
];

/// What no patched file may still hold.
const GONE: [&str; 5] = [".sin_cos()", ".sin()", ".cos()", ".sum()", ".sum::<"];

/// Private functions that the checks need, shown by a module at the end of tessellate.rs.
const SHOWN: &str = r"
pub mod shown {
    use super::*;
    pub fn arc_segments(o: &TessellationOptions, span: f64) -> usize {
        o.arc_segments(span)
    }
    pub fn clean_polygon(v: &[(f64, f64)]) -> Vec<(f64, f64)> {
        super::clean_polygon(v)
    }
    pub fn ccw_polygon(v: &[(f64, f64)]) -> (Vec<(f64, f64)>, Vec<[usize; 3]>) {
        super::ccw_polygon(v)
    }
}
";

fn main() {
    let here = PathBuf::from(env::var("CARGO_MANIFEST_DIR").unwrap());
    let out = PathBuf::from(env::var("OUT_DIR").unwrap());
    let plain = env::var("CARGO_FEATURE_PLAIN").is_ok();
    let from = match env::var("CSX_SRC") {
        Ok(place) => PathBuf::from(place),
        Err(_) => here.join("../../../../shared/docs/src"),
    };
    println!("cargo:rerun-if-env-changed=CSX_SRC");
    println!("cargo:rerun-if-changed={}", here.join("../csx/build.rs").display());
    println!("cargo:rerun-if-changed={}", here.join("../csx/stubs").display());
    for name in ORIGINALS {
        let path = from.join("src").join(name);
        println!("cargo:rerun-if-changed={}", path.display());
        let mut text = read(&path);
        if !plain {
            for patch in SINE.iter().chain(&SUMS).chain(&COUNT) {
                if patch.0 == name {
                    text = patched(&text, patch);
                }
            }
            for gone in GONE {
                assert!(!text.contains(gone), "{name}: {gone} is left after patching");
            }
        }
        if name == "tessellate.rs" {
            text.push_str(SHOWN);
        }
        write(&out.join("src").join(name), &text);
    }
    for (stub, place) in STUBS {
        write(&out.join("src").join(place), &read(&here.join("../csx/stubs").join(stub)));
    }
    write(&out.join("csx.rs"), &tree(&out.join("src")));
}

fn patched(text: &str, (file, old, new): &Patch) -> String {
    let n = text.matches(old).count();
    assert!(n == 1, "{file}: the text to patch stands there {n} times and not once:\n{old}");
    text.replace(old, new)
}

/// The module tree and what the originals expect at the crate's root.
fn tree(src: &Path) -> String {
    let mut text = String::new();
    for name in MODULES {
        let module = name.trim_end_matches(".rs").trim_end_matches("/mod");
        text += &format!("#[path = {:?}]\npub mod {module};\n", src.join(name));
    }
    text + "pub use coords::CoordSystem;\npub use error::Error;\npub use math::{BoundingBox, Mat4, Vec3};\n\
            pub use param::{ParameterSet, Scalar, ScalarPoint};\npub use transform::{Transform, TransformOp};\n"
}

fn read(path: &Path) -> String {
    fs::read_to_string(path).unwrap_or_else(|e| panic!("{}: {e} (set CSX_SRC to the originals)", path.display()))
}

fn write(path: &Path, text: &str) {
    fs::create_dir_all(path.parent().unwrap()).unwrap();
    fs::write(path, text).unwrap();
}
