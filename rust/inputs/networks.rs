//! Networks by shape. ASes are places from 0 on until `numbered` gives them numbers.
use super::Random;
use std::collections::HashSet;

/// A link from its first AS to its second: provider to customer, or peers.
#[derive(Clone, Copy, Debug)]
pub struct Link {
    pub a: u32,
    pub b: u32,
    pub provides: bool,
}

/// A list of links in which no pair stands twice.
struct Links {
    list: Vec<Link>,
    pairs: HashSet<(u32, u32)>,
}

impl Links {
    fn new() -> Links {
        Links { list: Vec::new(), pairs: HashSet::new() }
    }

    /// Adds a link, unless both ends are one or the pair is there.
    fn add(&mut self, a: usize, b: usize, provides: bool) {
        let (a, b) = (a as u32, b as u32);
        if a != b && self.pairs.insert((a.min(b), a.max(b))) {
            self.list.push(Link { a, b, provides });
        }
    }
}

/// The most links that so many ASes can have, or fewer.
fn at_most(links: usize, ases: usize) -> usize {
    links.min(ases * (ases - 1) / 2)
}

/// Links drawn blindly: rings are likely if `rings`, otherwise providers stand before their customers. Some ASes may get no link.
pub fn any(r: &mut Random, ases: usize, links: usize, rings: bool) -> Vec<Link> {
    let mut net = Links::new();
    let peers = r.pick(&[0, 10, 30, 60, 100]);
    while net.list.len() < at_most(links, ases) {
        let (x, y) = (r.below(ases), r.below(ases));
        let (a, b) = if rings { (x, y) } else { (x.min(y), x.max(y)) };
        net.add(a, b, !r.chance(peers));
    }
    net.list
}

/// Every AS but a few tops has a provider before it; the tops are peers; further links go down or across.
pub fn hierarchy(r: &mut Random, ases: usize, links: usize) -> Vec<Link> {
    let mut net = Links::new();
    let tops = r.between(1, 4).min(ases);
    for a in 0..tops {
        for b in a + 1..tops {
            net.add(a, b, false);
        }
    }
    for b in tops..ases {
        net.add(r.below(b), b, true);
    }
    while net.list.len() < at_most(links, ases) {
        let (x, y) = (r.below(ases), r.below(ases));
        let across = x >= tops && y >= tops && r.chance(30);
        net.add(x.min(y), x.max(y), !across);
    }
    r.shuffle(&mut net.list);
    net.list
}

/// A chain of providers, listed from its top down or from its bottom up.
pub fn chain(ases: usize, top_down: bool) -> Vec<Link> {
    let mut net = Links::new();
    for i in 1..ases {
        net.add(i - 1, i, true);
    }
    if !top_down {
        net.list.reverse();
    }
    net.list
}

/// One provider of all others.
pub fn star(ases: usize) -> Vec<Link> {
    let mut net = Links::new();
    for i in 1..ases {
        net.add(0, i, true);
    }
    net.list
}

/// A few hubs, peers of each other, that are linked to all others: the first as provider, the next as peer, the next as customer, and so on.
pub fn hubs(ases: usize, hubs: usize) -> Vec<Link> {
    let mut net = Links::new();
    for hub in 0..hubs {
        for other in hub + 1..ases {
            match (other < hubs, hub % 3) {
                (false, 0) => net.add(hub, other, true),
                (false, 2) => net.add(other, hub, true),
                _ => net.add(hub, other, false),
            }
        }
    }
    net.list
}

/// Nearly every two are linked: mostly the one before as provider, some as peers.
pub fn core(r: &mut Random, ases: usize, links: usize) -> Vec<Link> {
    let mut net = Links::new();
    for a in 0..ases {
        for b in a + 1..ases {
            net.add(a, b, !r.chance(25));
        }
    }
    r.shuffle(&mut net.list);
    net.list.truncate(links);
    net.list
}

/// How ASes are numbered.
#[derive(Clone, Copy, Debug)]
pub enum Numbers {
    /// 1 and up, mixed.
    Small,
    /// Spread over 32 bits, the largest number among them.
    Spread,
}

/// Gives the places numbers.
pub fn numbered(r: &mut Random, links: &[Link], numbers: Numbers) -> Vec<Link> {
    let places = links.iter().map(|l| l.a.max(l.b) + 1).max().unwrap_or(0);
    let mut names: Vec<u32> = match numbers {
        Numbers::Small => (1..=places).collect(),
        Numbers::Spread => spread(r, places as usize),
    };
    r.shuffle(&mut names);
    let named = |place: u32| names[place as usize];
    links.iter().map(|l| Link { a: named(l.a), b: named(l.b), ..*l }).collect()
}

/// Turns some peer links round: the same network, with other directions.
pub fn turned(r: &mut Random, links: &[Link]) -> Vec<Link> {
    let turn = |l: &Link| if !l.provides && r.chance(50) { Link { a: l.b, b: l.a, ..*l } } else { *l };
    links.iter().map(turn).collect()
}

/// So many different numbers over 32 bits.
fn spread(r: &mut Random, count: usize) -> Vec<u32> {
    let mut all = HashSet::from([u32::MAX]);
    while all.len() < count {
        all.insert((r.word() as u32).max(1));
    }
    let mut list: Vec<u32> = all.into_iter().collect();
    list.sort_unstable();
    list
}

/// The text of links.
pub fn text(links: &[Link]) -> Vec<u8> {
    links.iter().flat_map(|l| format!("{}|{}|{}\n", l.a, l.b, if l.provides { "-1" } else { "0" }).into_bytes()).collect()
}
