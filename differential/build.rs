//! Where the static libraries are that `tools/build` puts there.

use std::path::Path;

fn main() {
    let folder = Path::new(env!("CARGO_MANIFEST_DIR")).join("../target/staticlib");
    println!("cargo::rustc-link-search=native={}", folder.display());
    println!("cargo::rerun-if-changed={}", folder.display());
}
