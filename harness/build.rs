//! Links the proved library, target/native/libtempuquile.a, which harness/archive
//! writes.

use std::path::Path;

fn main() {
    let package = std::env::var("CARGO_MANIFEST_DIR").expect("cargo says where the package is");
    let folder = Path::new(&package).join("../target/native");
    let archive = folder.join("libtempuquile.a");
    assert!(archive.exists(), "run harness/archive first");
    println!("cargo:rustc-link-search=native={}", folder.display());
    println!("cargo:rustc-link-lib=static=tempuquile");
    println!("cargo:rerun-if-changed={}", archive.display());
}
