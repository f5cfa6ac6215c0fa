//! Builds the original as the oracle does, but for what costs time and no search of the benchmark needs:
//! step 3 (every pool is large enough), staying on a line (the setting is off) and the small slabs. A patch that
//! does not fit exactly once stops the build.

#[path = "../oracle/build/patches.rs"]
#[allow(dead_code)]
mod patches;

use patches::{FILES, PATCHES, REMEMBERED, STEP_3, TAKEN_AGAIN};
use std::path::{Path, PathBuf};
use std::{env, fs, process};

const PLACE: &str = "ULTIMATTT_SRC";
const LEFT_OUT: [&str; 3] = [STEP_3, TAKEN_AGAIN, REMEMBERED];

fn main() {
    println!("cargo:rerun-if-changed=build.rs");
    println!("cargo:rerun-if-changed=../oracle/build/patches.rs");
    println!("cargo:rerun-if-env-changed={}", PLACE);
    let Some(place) = env::var_os(PLACE) else {
        stop(&format!("set {} to the directory of the original, as an absolute path", PLACE));
    };
    if let Some(name) = LEFT_OUT.iter().find(|name| !PATCHES.iter().any(|p| p.name == **name)) {
        stop(&format!("no patch is named {:?}", name));
    }
    let out = PathBuf::from(env::var("OUT_DIR").expect("cargo sets OUT_DIR"));
    for file in FILES {
        let from = Path::new(&place).join("src/lib").join(file);
        println!("cargo:rerun-if-changed={}", from.display());
        let text = fs::read_to_string(&from).unwrap_or_else(|e| stop(&format!("can't read {}: {}", from.display(), e)));
        let to = out.join(Path::new(file).file_name().expect("a file has a name"));
        fs::write(&to, patched(file, text)).unwrap_or_else(|e| stop(&format!("can't write {}: {}", to.display(), e)));
    }
}

fn patched(file: &str, mut text: String) -> String {
    for patch in PATCHES.iter().filter(|p| p.file == file && !LEFT_OUT.contains(&p.name)) {
        let fits = text.matches(patch.from).count();
        if fits != 1 {
            stop(&format!("patch {:?} fits {} times in {}, not once", patch.name, fits, file));
        }
        text = text.replacen(patch.from, patch.to, 1);
    }
    text
}

fn stop(message: &str) -> ! {
    eprintln!("bench: {}", message);
    process::exit(1)
}
