//! The networks that are measured, with AS numbers spread over 32 bits.
use crate::inputs::{chain, core, hierarchy, hubs, numbered, star, text, Link, Numbers, Random};
use crate::plain;
use std::collections::BTreeSet;

pub struct Network {
    pub name: &'static str,
    pub what: &'static str,
    pub links: usize,
    pub ases: usize,
    pub text: Vec<u8>,
    pub destination: u32,
    /// How the machine ends: quiet or stopped, and after how many deliveries.
    pub end: String,
}

/// The network of links between places, to the place `to`, which has a provider.
fn network(r: &mut Random, name: &'static str, what: &'static str, places: &[Link], to: u32) -> Network {
    let at = places.iter().position(|l| l.provides && l.b == to).unwrap_or(0);
    let links = numbered(r, places, Numbers::Spread);
    let ases = links.iter().flat_map(|l| [l.a, l.b]).collect::<BTreeSet<u32>>().len();
    let (text, destination) = (text(&links), links[at].b);
    let ran = plain::run(&text, destination, &[], 65_536, &mut vec![0; 4 * ases]);
    let said = |(made, _, quiet)| format!("{} after {made} deliveries", if quiet { "quiet" } else { "stopped" });
    Network { name, what, links: links.len(), ases, text, destination, end: ran.map_or("refused".into(), said) }
}

pub fn all() -> Vec<Network> {
    let r = &mut Random::new(1);
    let wide = hierarchy(r, 512, 1_536);
    let dense = core(r, 56, 1_536);
    let long = stored(include_bytes!("../../../quiet_65536.txt"));
    vec![
        network(r, "hierarchy", "providers above customers, drawn at random; to an AS without customers", &wide, 511),
        network(r, "chain down", "a chain of providers listed from its top; to its bottom", &chain(512, true), 511),
        network(r, "chain up", "the same listed from its bottom; to its bottom", &chain(512, false), 511),
        network(r, "star", "one provider of all others; to one of these", &star(512), 301),
        network(r, "hubs", "a provider, a peer and a customer of all others; to one of these", &hubs(512, 3), 301),
        network(r, "core", "nearly every two linked, a quarter of them as peers; to the lowest", &dense, 55),
        network(r, "long run", "the stored network on which the machine makes 65,536 deliveries; to its destination", &long, 1),
    ]
}

/// The links of a stored input of the program: its numbers, which are small, taken as places.
fn stored(input: &[u8]) -> Vec<Link> {
    let cut = input.iter().position(|byte| *byte == b'\n').unwrap_or(0);
    let read = plain::read_text(&input[cut + 1..]).unwrap_or_default();
    read.iter().map(|l| Link { a: l.a, b: l.b, provides: l.relation == 1 }).collect()
}
