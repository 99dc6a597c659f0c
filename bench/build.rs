//! Links the static library of the proved side, which `rt lib` writes in crates/workload.

fn main() {
    let library = concat!(env!("CARGO_MANIFEST_DIR"), "/../crates/workload/out");
    println!("cargo:rustc-link-search=native={library}");
    println!("cargo:rustc-link-lib=static=workload");
    println!("cargo:rerun-if-changed={library}/libworkload.a");
}
