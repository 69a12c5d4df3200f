//! The same entries in plain, fast Rust, for benchmarks to measure the library against: what a storefront programmer would write who knows
//! the data structures and has no proof to give.
//!
//! Hash maps for ASes and pairs, arrays of neighbours, breadth-first queues, buckets by length, an ordered set of waiting directions. Limits,
//! refusals and results are those of the library; memory is allocated anew at each call.
#![allow(dead_code)]

mod findings;
mod machine;
mod network;
mod sheets;
mod table;
mod texts;

pub use texts::{read_text, Link};

/// Number and place of a refusal.
pub type No = (u32, usize);

const MOST_LINKS: usize = 1_536;
const MOST_ASES: usize = 512;
const MOST_BYTES: usize = 65_536;
const MOST_CHOICES: usize = 65_536;
const MOST_LENGTH: u32 = 511;

/// Text to sheet: how many bytes were written.
pub fn sheet(text: &[u8], destination: u32, bytes: &mut [u8]) -> Result<usize, No> {
    let net = network::Network::of(&texts::read_text(text)?)?;
    let d = net.place_of(destination)?;
    let lines = table::stable(&net, d);
    sheets::write(&net, destination, &lines, bytes)
}

/// Links to stable table: four words for each AS.
pub fn table(links: &[Link], destination: u32, words: &mut [u32]) -> Result<(), No> {
    let net = network::Network::of(links)?;
    let d = net.place_of(destination)?;
    if words.len() < 4 * net.ases.len() {
        return Err((8, 0));
    }
    table::write(&net, &table::stable(&net, d), words);
    Ok(())
}

/// The judge.
pub fn judge(text: &[u8], sheet: &[u8]) -> Result<(), No> {
    if text.len() > MOST_BYTES || sheet.len() > MOST_BYTES {
        return Err((1, 0));
    }
    let net = network::Network::of(&texts::read_text(text)?)?;
    sheets::judge(&net, sheet)
}

/// Ring, joined.
pub fn findings(text: &[u8]) -> Result<(bool, bool), No> {
    let net = network::Network::of(&texts::read_text(text)?)?;
    Ok((findings::ring(&net), findings::joined(&net)))
}

/// Deliveries, idle choices, quiet or not.
pub type Counts = (usize, usize, bool);

/// A run of the machine.
pub fn run(text: &[u8], destination: u32, choices: &[u32], further: u32, words: &mut [u32]) -> Result<Counts, No> {
    if choices.len() > MOST_CHOICES || further as usize > MOST_CHOICES {
        return Err((1, 0));
    }
    let net = network::Network::of(&texts::read_text(text)?)?;
    let d = net.place_of(destination)?;
    if words.len() < 4 * net.ases.len() {
        return Err((8, 0));
    }
    if let Some(i) = choices.iter().position(|choice| *choice as usize >= 2 * net.links.len()) {
        return Err((13, i));
    }
    let mut machine = machine::Machine::fresh(&net, d);
    let counts = machine.run(choices, further as usize);
    table::write(&net, &machine.lines, words);
    Ok(counts)
}
