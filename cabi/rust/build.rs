//! Links libcabi.a, which `rt lib` in crates/cabi writes. BALUNDUWA_LIB_DIR is its folder, else this repository's crates/cabi/out.
use std::{env, path::PathBuf};

fn main() {
    println!("cargo:rerun-if-env-changed=BALUNDUWA_LIB_DIR");
    let folder = match env::var_os("BALUNDUWA_LIB_DIR") {
        Some(folder) => PathBuf::from(folder),
        None => PathBuf::from(env::var_os("CARGO_MANIFEST_DIR").unwrap()).join("../../crates/cabi/out"),
    };
    let archive = folder.join("libcabi.a");
    assert!(archive.is_file(), "no file {}: run `rt lib` in crates/cabi", archive.display());
    println!("cargo:rerun-if-changed={}", archive.display());
    println!("cargo:rustc-link-search=native={}", folder.display());
    println!("cargo:rustc-link-lib=static=cabi");
}
