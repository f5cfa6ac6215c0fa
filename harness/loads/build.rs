//! Links the proved library of both readings, libload_bench.a.

#[path = "../uttt/build/link.rs"]
mod link;

fn main() {
    println!("cargo:rerun-if-changed=../uttt/build/link.rs");
    link::library("load_bench");
}
