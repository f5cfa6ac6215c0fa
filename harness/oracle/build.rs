//! Reads the original's sources, applies the patches of build/patches.rs and writes the modules to
//! OUT_DIR, from where src/lib.rs includes them. A patch that does not fit exactly once stops the
//! build.

#[path = "build/patches.rs"]
mod patches;

use patches::{Patch, FILES, PATCHES, SMALL_SLABS};
use std::path::{Path, PathBuf};
use std::{env, fs, process};

const PLACE: &str = "ULTIMATTT_SRC";

fn main() {
    println!("cargo:rerun-if-changed=build.rs");
    println!("cargo:rerun-if-changed=build/patches.rs");
    println!("cargo:rerun-if-env-changed={}", PLACE);
    let sources = sources();
    let out = PathBuf::from(env::var("OUT_DIR").expect("cargo sets OUT_DIR"));
    for file in FILES {
        let from = sources.join(file);
        println!("cargo:rerun-if-changed={}", from.display());
        let text = fs::read_to_string(&from).unwrap_or_else(|e| stop(&format!("can't read {}: {}", from.display(), e)));
        let to = out.join(Path::new(file).file_name().expect("a file has a name"));
        fs::write(&to, patched(file, text)).unwrap_or_else(|e| stop(&format!("can't write {}: {}", to.display(), e)));
    }
}

/// The directory that holds the original's library.
fn sources() -> PathBuf {
    let Some(place) = env::var_os(PLACE) else {
        stop(&format!(
            "set {} to the directory of the original (it holds src/lib/game.rs), as an absolute path",
            PLACE
        ));
    };
    let lib = Path::new(&place).join("src/lib");
    if !lib.is_dir() {
        stop(&format!(
            "{} is {:?}, and there is no directory src/lib in it (a relative path is looked for from the package)",
            PLACE, place
        ));
    }
    lib
}

fn patched(file: &str, mut text: String) -> String {
    for patch in PATCHES.iter().filter(|p| p.file == file) {
        text = apply(patch, text);
    }
    if env::var_os("CARGO_FEATURE_ORIGINAL_PAGES").is_none() && SMALL_SLABS.file == file {
        text = apply(&SMALL_SLABS, text);
    }
    text
}

fn apply(patch: &Patch, text: String) -> String {
    let fits = text.matches(patch.from).count();
    if fits != 1 {
        stop(&format!("patch {:?} fits {} times in {}, not once", patch.name, fits, patch.file));
    }
    text.replacen(patch.from, patch.to, 1)
}

fn stop(message: &str) -> ! {
    eprintln!("oracle: {}", message);
    process::exit(1)
}
