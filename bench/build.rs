//! Links the archive of the C functions, which `tools/build` makes.
fn main() {
    let folder = std::path::Path::new(env!("CARGO_MANIFEST_DIR")).join("../target/staticlib");
    println!("cargo:rustc-link-search=native={}", folder.display());
    println!("cargo:rustc-link-lib=static=abi");
    println!("cargo:rerun-if-changed={}", folder.join("libabi.a").display());
}
