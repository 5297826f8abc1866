//! Links the library under test: `libcapi.a`, which `rt lib` in crates/capi writes.
//!
//! MUKDALIS_LIB_DIR names another folder to take it from.

use std::path::{Path, PathBuf};
use std::{env, process};

fn main() {
    println!("cargo:rerun-if-env-changed=MUKDALIS_LIB_DIR");
    let package = env::var_os("CARGO_MANIFEST_DIR").expect("cargo sets CARGO_MANIFEST_DIR");
    let folder = match env::var_os("MUKDALIS_LIB_DIR") {
        Some(folder) => PathBuf::from(folder),
        None => Path::new(&package).join("../../crates/capi/out"),
    };
    let archive = folder.join("libcapi.a");
    println!("cargo:rerun-if-changed={}", archive.display());
    if !archive.is_file() {
        eprintln!("{} is missing", archive.display());
        eprintln!("run `rt lib` first, in the repository's crates/capi");
        process::exit(1);
    }
    println!("cargo:rustc-link-search=native={}", folder.display());
    println!("cargo:rustc-link-lib=static=capi");
    println!("cargo:rustc-env=MUKDALIS_ARCHIVE={}", archive.display());
}
