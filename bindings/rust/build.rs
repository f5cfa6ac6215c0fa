//! Links libultimattt.a from the directory that ULTIMATTT_LIB names, or from target/staticlib of the repository.

use std::path::PathBuf;
use std::{env, process};

const PLACE: &str = "ULTIMATTT_LIB";

fn main() {
    println!("cargo:rerun-if-env-changed={PLACE}");
    let here = PathBuf::from(env::var_os("CARGO_MANIFEST_DIR").expect("cargo sets CARGO_MANIFEST_DIR"));
    let place = match env::var_os(PLACE) {
        Some(named) => PathBuf::from(named),
        None => here.join("../../target/staticlib"),
    };
    let archive = place.join("libultimattt.a");
    if !archive.is_file() {
        eprintln!("There is no libultimattt.a in {}.", place.display());
        eprintln!("Build it with 'make library', or set {PLACE} to its directory, as an absolute path.");
        process::exit(1);
    }
    println!("cargo:rerun-if-changed={}", archive.display());
    println!("cargo:rustc-link-search=native={}", place.display());
    println!("cargo:rustc-link-lib=static=ultimattt");
}
