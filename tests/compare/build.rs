//! Links the static library of the C functions, which `tools/build` makes.

use std::path::Path;

fn main() {
    let folder = Path::new(env!("CARGO_MANIFEST_DIR")).join("../../target/staticlib");
    let archive = folder.join("libabi.a");
    assert!(
        archive.exists(),
        "there is no target/staticlib/libabi.a: make it with `tools/build`"
    );
    println!("cargo::rerun-if-changed={}", archive.display());
    println!("cargo::rustc-link-search=native={}", folder.display());
    println!("cargo::rustc-link-lib=static=abi");
}
