//! Networks: the refusals of links, and who hears whom over which direction.
use super::{Line, No, MOST_ASES, MOST_LINKS};
use std::collections::{BTreeSet, HashMap, HashSet};

/// AS a, AS b, relation 0 (peers) or 1 (a is provider of b).
#[derive(Clone, Copy, PartialEq, Eq, Debug)]
pub struct Link {
    pub a: u32,
    pub b: u32,
    pub relation: u32,
}

/// A network: its links, and what each AS hears and tells over which direction.
pub struct Network {
    pub links: Vec<Link>,
    pub ases: BTreeSet<u32>,
    /// hearer -> (direction, neighbour, kind); kind 1 customer, 2 peer, 3 provider, seen from the hearer
    pub hears: HashMap<u32, Vec<(usize, u32, u32)>>,
    /// teller -> directions
    pub tells: HashMap<u32, Vec<usize>>,
}

impl Network {
    /// The network of links, or the first of refusals 1 to 6.
    pub fn new(links: &[Link]) -> Result<Network, No> {
        let ases = check(links)?;
        let mut hears: HashMap<u32, Vec<(usize, u32, u32)>> = HashMap::new();
        let mut tells: HashMap<u32, Vec<usize>> = HashMap::new();
        for (i, l) in links.iter().enumerate() {
            // b hears its provider or peer, a its customer or peer
            let (heard_by_b, heard_by_a) = if l.relation == 1 { (3, 1) } else { (2, 2) };
            hears.entry(l.b).or_default().push((2 * i, l.a, heard_by_b));
            hears.entry(l.a).or_default().push((2 * i + 1, l.b, heard_by_a));
            tells.entry(l.a).or_default().push(2 * i);
            tells.entry(l.b).or_default().push(2 * i + 1);
        }
        Ok(Network { links: links.to_vec(), ases, hears, tells })
    }

    /// The neighbours of an AS of one kind.
    pub fn neighbours(&self, u: u32, kind: u32) -> impl Iterator<Item = u32> + '_ {
        self.hears[&u].iter().filter(move |heard| heard.2 == kind).map(|heard| heard.1)
    }

    /// The best offer to u, or unreachable, where `told` gives the pair that a neighbour tells over a direction.
    pub fn best(&self, u: u32, told: impl Fn(usize, u32) -> (u32, u32)) -> Line {
        let offers = self.hears[&u].iter().filter_map(|&(direction, neighbour, kind)| {
            let (t, l) = told(direction, neighbour);
            let goes_on = if kind == 3 { (1..=3).contains(&t) } else { t == 1 };
            goes_on.then_some((kind, l + 1, neighbour))
        });
        // Smaller type, then smaller length, then smaller neighbour number
        offers.min().unwrap_or((4, 0, u))
    }
}

/// The ASes of links, or the first of refusals 1 to 6.
fn check(links: &[Link]) -> Result<BTreeSet<u32>, No> {
    if links.len() > MOST_LINKS {
        return Err((1, 0));
    }
    let mut ases = BTreeSet::new();
    let mut pairs = HashSet::new();
    for (i, l) in links.iter().enumerate() {
        if l.a == 0 || l.b == 0 {
            return Err((2, i));
        }
        if l.relation > 1 {
            return Err((3, i));
        }
        if l.a == l.b {
            return Err((4, i));
        }
        if !pairs.insert((l.a.min(l.b), l.a.max(l.b))) {
            return Err((5, i));
        }
        ases.extend([l.a, l.b]);
        if ases.len() > MOST_ASES {
            return Err((6, i));
        }
    }
    Ok(ases)
}
