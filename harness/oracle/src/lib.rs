//! The oracle: the original search, built from its own sources with the patches of build/patches.rs,
//! and the calls (MANUAL, Calls) answered by it. Where the original has no counterpart `answer` says
//! what stands in for it.

/// Modules of the original, as patched by build.rs.
#[allow(warnings, clippy::all)]
pub mod game {
    include!(concat!(env!("OUT_DIR"), "/game.rs"));
}
#[allow(warnings, clippy::all)]
pub mod progress {
    include!(concat!(env!("OUT_DIR"), "/progress.rs"));
}
#[allow(warnings, clippy::all, dangerous_implicit_autorefs)]
pub mod prove {
    include!(concat!(env!("OUT_DIR"), "/prove.rs"));
    pub mod node_pool {
        include!(concat!(env!("OUT_DIR"), "/node_pool.rs"));
    }
    pub mod pn {
        include!(concat!(env!("OUT_DIR"), "/pn.rs"));
        // Ours, placed here to use the original's nodes.
        mod stay;
        pub mod tree;
    }
}

mod answer;
pub mod cases;
pub mod games;
pub mod generate;
pub mod load;
pub mod players;
mod simd;
mod util;

pub use answer::{answer, ending, legal_moves, move_of, opening, replay, search, search_and_tree, Ending};
pub use prove::pn::tree::Tree;
