//! Links the proved library: libspirerivet.a in SPIRERIVET_LIB, else in crates/spirerivet/out of the repository.

use std::path::PathBuf;

fn main() {
    println!("cargo:rerun-if-env-changed=SPIRERIVET_LIB");
    let directory = match std::env::var_os("SPIRERIVET_LIB") {
        Some(directory) => PathBuf::from(directory),
        None => PathBuf::from(env!("CARGO_MANIFEST_DIR")).join("../../crates/spirerivet/out"),
    };
    let library = directory.join("libspirerivet.a");
    println!("cargo:rerun-if-changed={}", library.display());
    if !library.is_file() {
        println!(
            "cargo:warning=no {}: build it with `rt lib` in crates/spirerivet, or set SPIRERIVET_LIB",
            library.display()
        );
    }
    println!("cargo:rustc-link-search=native={}", directory.display());
    println!("cargo:rustc-link-lib=static=spirerivet");
}
