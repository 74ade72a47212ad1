//! Links libhavdrims.a, from target/staticlib of the repository or from the directory that HAVDRIMS_LIB_DIR names.

use std::env;
use std::path::PathBuf;

fn main() {
    println!("cargo:rerun-if-env-changed=HAVDRIMS_LIB_DIR");
    let crate_directory = PathBuf::from(env::var_os("CARGO_MANIFEST_DIR").expect("cargo sets it"));
    let directory = match env::var_os("HAVDRIMS_LIB_DIR") {
        Some(named) => PathBuf::from(named),
        None => crate_directory.join("../../target/staticlib"),
    };
    let archive = directory.join("libhavdrims.a");
    println!("cargo:rerun-if-changed={}", archive.display());
    if !archive.is_file() {
        eprintln!("{} is not there.", archive.display());
        eprintln!("Build it with `tools/archive` in the repository, or name its directory in HAVDRIMS_LIB_DIR.");
        std::process::exit(1);
    }
    println!("cargo:rustc-link-search=native={}", directory.display());
    println!("cargo:rustc-link-lib=static=havdrims");
}
