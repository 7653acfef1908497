//! Finds the archive: in the folder that ENGINE_LIB_DIR names, or else beside this package, as in dist/, or else where
//! `scripts/build` writes it.

use std::env;
use std::path::{Path, PathBuf};

const ARCHIVE: &str = "libengine.a";

fn main() {
    let folder = folder();
    println!("cargo:rerun-if-env-changed=ENGINE_LIB_DIR");
    println!("cargo:rerun-if-changed={}", folder.join(ARCHIVE).display());
    println!("cargo:rustc-link-search=native={}", folder.display());
    println!("cargo:rustc-link-lib=static=engine");
}

fn folder() -> PathBuf {
    if let Some(folder) = env::var_os("ENGINE_LIB_DIR") {
        return PathBuf::from(folder);
    }
    let package = env::var_os("CARGO_MANIFEST_DIR").expect("cargo sets CARGO_MANIFEST_DIR");
    let beside = Path::new(&package).join("..");
    if beside.join(ARCHIVE).exists() {
        return beside;
    }
    Path::new(&package).join("../../target/staticlib")
}
