//! Compiles the loop in C with the compiler that CC names, or cc, and links it. The package `uttt` links the library.

use std::env;
use std::path::Path;
use std::process::{self, Command};

const FLAGS: [&str; 5] = ["-std=c99", "-O3", "-Wall", "-Wextra", "-Werror"];

fn main() {
    println!("cargo:rerun-if-changed=build.rs");
    println!("cargo:rerun-if-changed=loop.c");
    println!("cargo:rerun-if-env-changed=CC");
    let out = env::var("OUT_DIR").expect("cargo sets OUT_DIR");
    let object = Path::new(&out).join("loop.o");
    let compiler = env::var("CC").unwrap_or_else(|_| "cc".to_string());
    let built = Command::new(&compiler).args(FLAGS).args(["-c", "loop.c", "-o"]).arg(&object).status();
    if !built.is_ok_and(|status| status.success()) {
        eprintln!("lookups: {} does not compile loop.c", compiler);
        process::exit(1);
    }
    println!("cargo:rustc-link-arg-bins={}", object.display());
}
