//! The library and the second program, side by side, on many inputs from a fixed seed.
//!
//! A case is one input given to both: replies must be equal, memory of a refused call must be as it was, and memory beyond a result must
//! be as it was. Accepted sheets are followed from every AS as well. A failing case prints its seed and its inputs.
//!
//! `BOSTUVREL_CASES=200000 cargo test --release --offline` runs about so many cases in all (not fewer than are run without it), and
//! `BOSTUVREL_SEED=7` draws others.
mod compare;
mod files;
mod limits;
mod links;
mod machine;
mod networks;
mod orders;
mod plainly;
mod sheets;
mod texts;

#[path = "../../inputs/mod.rs"]
mod inputs;
#[path = "../../plain/mod.rs"]
mod plain;
#[path = "../../second/mod.rs"]
mod second;

use inputs::Random;

/// How many cases each part runs at least. Each part asserts its own.
mod least {
    pub const NETWORKS: usize = 24_000;
    pub const TEXTS: usize = 30_000;
    pub const SHEETS: usize = 40_000;
    pub const MACHINE: usize = 12_000;
    pub const LINKS: usize = 20_000;
    pub const LIMITS: usize = 60;
    pub const ORDERS: usize = 40;
    pub const IN_ALL: usize = NETWORKS + TEXTS + SHEETS + MACHINE + LINKS + LIMITS + ORDERS;
    const _: () = assert!(IN_ALL >= 20_000);
}

/// Network A of document 01.
const A: &[u8] = b"10|20|-1\n20|30|-1\n30|40|-1\n10|40|0\n10|50|-1\n";

/// So many rounds of a part, more where the environment asks for more cases.
fn rounds(usual: usize) -> usize {
    let asked = std::env::var("BOSTUVREL_CASES").ok().and_then(|word| word.parse::<usize>().ok()).unwrap_or(0);
    usual * asked.max(least::IN_ALL) / least::IN_ALL
}

/// The seed of a round of a part, and its numbers.
fn seeded(part: u64, round: usize) -> (u64, Random) {
    let base = std::env::var("BOSTUVREL_SEED").ok().and_then(|word| word.parse::<u64>().ok()).unwrap_or(2024);
    let seed = Random::new(base ^ part << 56 ^ round as u64).word();
    (seed, Random::new(seed))
}
