//! Links the static library that `tools/build` makes.

use std::{env, path::PathBuf};

fn main() {
    let package = env::var_os("CARGO_MANIFEST_DIR").expect("cargo sets it");
    let folder = PathBuf::from(package).join("../../target/staticlib");
    let library = folder.join("libcast.a");
    println!("cargo:rerun-if-changed={}", library.display());
    if !library.is_file() {
        panic!(
            "{} is missing: run 'tools/build' first",
            library.display()
        );
    }
    println!("cargo:rustc-link-search=native={}", folder.display());
    println!("cargo:rustc-link-lib=static=cast");
}
