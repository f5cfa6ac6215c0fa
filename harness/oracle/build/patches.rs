//! The patches, in the order in which they are applied. Each names the file, quotes the shortest
//! fragment that fits once, and gives what stands in its place. docs/DIFFERENCES.md lists them.

pub struct Patch {
    pub name: &'static str,
    pub file: &'static str,
    pub from: &'static str,
    pub to: &'static str,
}

const fn patch(name: &'static str, file: &'static str, from: &'static str, to: &'static str) -> Patch {
    Patch { name, file, from, to }
}

const GAME: &str = "game.rs";
const PROVE: &str = "prove.rs";
const PN: &str = "prove/pn.rs";
const POOL: &str = "prove/node_pool.rs";
const PROGRESS: &str = "progress.rs";

pub const FILES: [&str; 5] = [GAME, PROVE, PN, POOL, PROGRESS];

/// Names of patches that a build for timing can leave out.
pub const STEP_3: &str = "step 3";
pub const TAKEN_AGAIN: &str = "child taken again";
pub const REMEMBERED: &str = "move remembered";

pub const PATCHES: &[Patch] = &[
    // What can't be built here: modules that are not at hand or lean on such, and crates of a registry.
    patch("no display", GAME, "mod display;", ""),
    patch("no notation", GAME, "pub mod notation;", ""),
    patch("no dfpn", PROVE, "pub mod dfpn;", ""),
    patch("no pn_dfpn", PROVE, "pub mod pn_dfpn;", ""),
    patch("no spdfpn", PROVE, "pub mod spdfpn;", ""),
    patch("no serde", PN, "use serde::Serialize;", ""),
    patch("no derived Serialize", PN, ", Serialize)]", ")]"),
    // src/lib.rs places these two modules itself.
    patch("node_pool placed", PROVE, "pub mod node_pool;", ""),
    patch("pn placed", PROVE, "pub mod pn;", ""),
    // src/simd.rs stands in for the unstable std::simd.
    patch("eight lanes", GAME, "use std::simd::", "use crate::simd::"),
    // src/load.rs fills boards from a record's cells.
    patch("cells can be set", GAME, "struct LocalBoard([", "struct LocalBoard(pub ["),
    // The interval is a value of the call.
    patch("interval kept", PROGRESS, "Counter<const N: usize> {", "Counter {\n    interval: usize,"),
    patch("counter without N", PROGRESS, "impl<const N: usize> Counter<N>", "impl Counter"),
    patch("interval taken", PROGRESS, "new()", "new(interval: usize)"),
    patch("interval first", PROGRESS, "count: N", "interval, count: interval"),
    patch("interval again", PROGRESS, "self.count = N;", "self.count = self.interval;"),
    patch("no fixed interval", PN, "const PROGRESS_INTERVAL: usize = 10000;", ""),
    patch("interval and cause held", PN, "Counter<PROGRESS_INTERVAL>,", "Counter,\n    cause: u32,"),
    patch("interval given", PN, "Counter::new(),", "Counter::new(cfg.interval),\n            cause: 0,"),
    // Settings that the original has not.
    patch(
        "settings added",
        PN,
        "pub pn2: bool,",
        "pub pn2: bool,
    pub rule: u64,
    pub pool: u64,
    pub budget: u64,
    pub interval: usize,
    pub stay: Option<u64>,",
    ),
    patch(
        "settings' defaults",
        PN,
        "pn2: false,",
        "pn2: false,
            rule: 0,
            pool: u64::MAX,
            budget: u64::MAX,
            interval: 10000,
            stay: None,",
    ),
    // Staying on a line: src/prove/pn/stay.rs has both functions. With the setting off the first gives none.
    patch(
        TAKEN_AGAIN,
        PN,
        "let mut child = NodeID::none();
            let mut c = node.first_child;",
        "let mut child = stay::taken_again(self, node);
            let mut c = if child.exists() { NodeID::none() } else { node.first_child };",
    ),
    patch(
        REMEMBERED,
        PN,
        "self.cursor.descend(nid, child, &self.nodes.get(child));",
        "stay::remember(self, nid, child);
            self.cursor.descend(nid, child, &self.nodes.get(child));",
    ),
    // Steps 1 and 3 (MANUAL, Search). At step 3 the original makes the leaf's children. If the pool has not so
    // many nodes the search ends before the climb, and only the two counts have to be set back.
    patch(
        "step 1",
        PN,
        "let next = ",
        "if self.stats.expanded as u64 == self.config.budget {
                self.cause = 1;
                break;
            }
            let next = ",
    ),
    patch(
        STEP_3,
        PN,
        "self.expand(next);",
        "let allocated = self.nodes.stats.allocated.get();
            self.expand(next);
            if self.nodes.stats.live() as u64 > self.config.pool {
                self.nodes.stats.allocated.set(allocated);
                self.stats.expanded -= 1;
                self.cause = 2;
                break;
            }",
    ),
    patch("cause 3", PN, ".unwrap_or(false) {", ".unwrap_or(false) {\n                    self.cause = 3;"),
    // Draw rules 1 and 2: whether a drawn position is False.
    patch(
        "draw rules",
        PN,
        "pos.player() == player",
        "(match self.config.rule { 0 => pos.player() == player, 1 => true, _ => false })",
    ),
    // The result tells what was freed, and why the search ended.
    patch(
        "freed and cause told",
        PN,
        "pub allocated: usize,",
        "pub allocated: usize,
    pub freed: usize,
    pub cause: u32,",
    ),
    patch(
        "freed and cause read",
        PN,
        "allocated: prover.nodes",
        "freed: prover.nodes.stats.freed.get(),
            cause: if root.bounds.solved() { 0 } else { prover.cause },
            allocated: prover.nodes",
    ),
    // The result keeps the prover, and with it the tree where the search ended, which src/prove/pn/tree.rs reads.
    patch("prover told", PN, "pub struct ProofResult {", "pub struct ProofResult {\n    pub prover: Prover,"),
    patch(
        "prover kept",
        PN,
        "prover.nodes.stats.allocated.get(),",
        "prover.nodes.stats.allocated.get(),\n            prover,",
    ),
];

/// Slabs of 2^10 nodes: the original sets up 20 megabytes for each search, which would be most of
/// the time of a small one. Nodes are handed out in the same order. Left out by `original-pages`.
pub const SMALL_SLABS: Patch = patch("small slabs", POOL, "1 << 20", "1 << 10");
