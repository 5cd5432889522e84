// Links the port's static library, built by `rt lib` in crates/export.
use std::path::PathBuf;

fn main() {
    println!("cargo:rerun-if-env-changed=HUFALIMPY_LIB");
    let folder = std::env::var("HUFALIMPY_LIB").map(PathBuf::from).unwrap_or_else(|_| {
        PathBuf::from(env!("CARGO_MANIFEST_DIR")).join("../../../crates/export/out")
    });
    let library = folder.join("libexport.a");
    println!("cargo:rerun-if-changed={}", library.display());
    if !library.exists() {
        panic!("{} is missing: run `rt lib` in crates/export", library.display());
    }
    println!("cargo:rustc-link-search=native={}", folder.display());
    println!("cargo:rustc-link-lib=static=export");
}
