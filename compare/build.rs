//! Links the proved library, which `rt lib` has built in crates/boundary.

use std::path::Path;

fn main() {
    let here = std::env::var("CARGO_MANIFEST_DIR").expect("cargo names the package's folder");
    let folder = Path::new(&here).join("../crates/boundary/out");
    println!("cargo:rustc-link-search=native={}", folder.display());
    println!("cargo:rustc-link-lib=static=boundary");
    println!("cargo:rerun-if-changed={}", folder.join("libboundary.a").display());
}
