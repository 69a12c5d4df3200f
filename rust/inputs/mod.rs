//! Inputs for tests and benchmarks: networks of many shapes and damaged texts, all from a seed.
// Tests use all of it, benchmarks a part
#![allow(dead_code, unused_imports)]

mod damage;
mod networks;
mod random;

pub use damage::damaged;
pub use networks::{any, chain, core, hierarchy, hubs, numbered, star, text, turned, Link, Numbers};
pub use random::Random;
