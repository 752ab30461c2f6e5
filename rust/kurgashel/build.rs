//! Links the static library of the proved crates, which `tools/library` writes to `target/staticlib` at the top of the repository. Where it stands in
//! another folder, as after `make install`, the variable KURGASHEL_LIB_DIR tells that folder's full path.

use std::env;
use std::path::{Path, PathBuf};

fn main() {
    println!("cargo:rerun-if-env-changed=KURGASHEL_LIB_DIR");
    let folder = env::var_os("KURGASHEL_LIB_DIR").map_or_else(built_here, PathBuf::from);
    let library = folder.join("libkurgashel.a");
    if !library.exists() {
        panic!(
            "{} is missing: run tools/library, or set KURGASHEL_LIB_DIR to its folder",
            library.display()
        );
    }
    println!("cargo:rerun-if-changed={}", library.display());
    println!("cargo:rustc-link-search=native={}", folder.display());
    println!("cargo:rustc-link-lib=static=kurgashel");
}

/// The folder that `tools/library` writes to.
fn built_here() -> PathBuf {
    let package = env::var("CARGO_MANIFEST_DIR").expect("cargo sets the package's folder");
    Path::new(&package).join("../../target/staticlib")
}
