//! Links the static library that `rt lib` writes in crates/timed.

fn main() {
    let folder = concat!(env!("CARGO_MANIFEST_DIR"), "/../crates/timed/out");
    println!("cargo:rustc-link-search=native={folder}");
    println!("cargo:rustc-link-lib=static=timed");
    println!("cargo:rerun-if-changed={folder}/libtimed.a");
}
