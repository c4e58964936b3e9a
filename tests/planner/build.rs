//! Links target/staticlib/libsizturga.a, which `tests/staticlib sizturga` writes; SIZTURGA_LIB names another libsizturga.a.
use std::path::{Path, PathBuf};

fn main() {
    println!("cargo:rerun-if-env-changed=SIZTURGA_LIB");
    let ours = Path::new(env!("CARGO_MANIFEST_DIR")).join("../../target/staticlib/libsizturga.a");
    let library = std::env::var_os("SIZTURGA_LIB").map_or(ours, PathBuf::from);
    println!("cargo:rerun-if-changed={}", library.display());
    println!("cargo:rustc-link-search=native={}", library.parent().expect("a folder").display());
    println!("cargo:rustc-link-lib=static=sizturga");
}
