//! Links a proved library from the directory that ULTIMATTT_LIB names.

use std::path::Path;
use std::{env, process};

const PLACE: &str = "ULTIMATTT_LIB";

/// Links libNAME.a into the package that is built.
pub fn library(name: &str) {
    println!("cargo:rerun-if-changed=build.rs");
    println!("cargo:rerun-if-env-changed={}", PLACE);
    let file = format!("lib{}.a", name);
    let Some(place) = env::var_os(PLACE) else {
        stop(&format!("set {} to the directory that holds {}, as an absolute path", PLACE, file));
    };
    let archive = Path::new(&place).join(&file);
    if !archive.is_file() {
        stop(&format!("{} is {:?}, and there is no {} in it; build the static library first", PLACE, place, file));
    }
    println!("cargo:rerun-if-changed={}", archive.display());
    println!("cargo:rustc-link-search=native={}", Path::new(&place).display());
    println!("cargo:rustc-link-lib=static={}", name);
}

fn stop(message: &str) -> ! {
    eprintln!("{}: {}", env::var("CARGO_PKG_NAME").unwrap_or_default(), message);
    process::exit(1)
}
