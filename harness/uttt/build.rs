//! Links the proved library, libultimattt.a.

#[path = "build/link.rs"]
mod link;

fn main() {
    println!("cargo:rerun-if-changed=build/link.rs");
    link::library("ultimattt");
}
