//! The two findings on a network.
use super::{Link, Network, No};
use std::collections::{HashMap, HashSet};

/// The two findings: ring, joined.
pub fn findings(links: &[Link]) -> Result<(bool, bool), No> {
    let net = Network::new(links)?;
    Ok((net.ring(), net.joined()))
}

/// How far the walk down has come with an AS.
#[derive(Clone, Copy, PartialEq)]
enum Colour {
    OnTheWay,
    Done,
}

impl Network {
    /// Whether some AS reaches itself by one or more provider-to-customer links.
    pub fn ring(&self) -> bool {
        let mut colours = HashMap::new();
        self.ases.iter().any(|&start| !colours.contains_key(&start) && self.ring_below(start, &mut colours))
    }

    /// Whether the walk down from an AS comes to one that it is on the way from. It keeps the way with the customers still to see.
    fn ring_below(&self, start: u32, colours: &mut HashMap<u32, Colour>) -> bool {
        let customers = |u: u32| self.neighbours(u, 1).collect::<Vec<u32>>();
        let mut way = vec![(start, customers(start))];
        colours.insert(start, Colour::OnTheWay);
        while let Some((u, left)) = way.last_mut() {
            let Some(c) = left.pop() else {
                colours.insert(*u, Colour::Done);
                way.pop();
                continue;
            };
            match colours.get(&c) {
                Some(Colour::OnTheWay) => return true,
                Some(Colour::Done) => {}
                None => {
                    colours.insert(c, Colour::OnTheWay);
                    way.push((c, customers(c)));
                }
            }
        }
        false
    }

    /// Whether every two different tops are peers.
    pub fn joined(&self) -> bool {
        let tops: Vec<u32> = self.ases.iter().copied().filter(|&u| self.neighbours(u, 3).next().is_none()).collect();
        let peers: HashSet<(u32, u32)> =
            self.links.iter().filter(|l| l.relation == 0).flat_map(|l| [(l.a, l.b), (l.b, l.a)]).collect();
        tops.iter().all(|&u| tops.iter().all(|&v| u == v || peers.contains(&(u, v))))
    }
}
