//! Links the archive of the proved code, which `rt lib` writes in `crates/splitter`.

use std::path::Path;

fn main() {
    let folder = Path::new(env!("CARGO_MANIFEST_DIR")).join("../../crates/splitter/out");
    let archive = folder.join("libsplitter.a");
    println!("cargo:rerun-if-changed={}", archive.display());
    assert!(
        archive.exists(),
        "run `rt lib` in crates/splitter first: no {}",
        archive.display()
    );
    println!("cargo:rustc-link-search=native={}", folder.display());
    println!("cargo:rustc-link-lib=static=splitter");
}
