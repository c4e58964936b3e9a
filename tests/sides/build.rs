//! Links target/staticlib/libc_solids.a, which `tests/staticlib c_solids` writes.
fn main() {
    let place = std::path::Path::new(env!("CARGO_MANIFEST_DIR")).join("../../target/staticlib");
    println!("cargo:rerun-if-changed={}", place.join("libc_solids.a").display());
    println!("cargo:rustc-link-search=native={}", place.display());
    println!("cargo:rustc-link-lib=static=c_solids");
}
