//! Finds libbench.a: in the folder that BENCH_LIB_DIR names, or else where `scripts/build bench` writes it.

use std::env;
use std::path::{Path, PathBuf};

fn main() {
    let folder = match env::var_os("BENCH_LIB_DIR") {
        Some(folder) => PathBuf::from(folder),
        None => {
            let manifest = env::var_os("CARGO_MANIFEST_DIR").expect("cargo sets CARGO_MANIFEST_DIR");
            Path::new(&manifest).join("../../target/staticlib")
        }
    };
    println!("cargo:rerun-if-env-changed=BENCH_LIB_DIR");
    println!("cargo:rerun-if-changed={}", folder.join("libbench.a").display());
    println!("cargo:rustc-link-search=native={}", folder.display());
    println!("cargo:rustc-link-lib=static=bench");
}
