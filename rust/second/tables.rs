//! The stable table, by repeating its own rule.
use super::{Line, Link, Network, No};
use std::collections::{BTreeMap, HashMap};

impl Network {
    /// The line that is due at u, given all lines: origin at the destination, else the best offer.
    pub fn due(&self, u: u32, d: u32, lines: &HashMap<u32, Line>) -> Line {
        if u == d {
            return (1, 0, d);
        }
        self.best(u, |_, v| (lines[&v].0, lines[&v].1))
    }

    /// The stable table to d: lines are made the due ones, all at once, until they are. None where d is not in the network.
    pub fn table(&self, d: u32) -> Option<BTreeMap<u32, Line>> {
        if !self.ases.contains(&d) {
            return None;
        }
        let mut lines: HashMap<u32, Line> = self.ases.iter().map(|&u| (u, (4, 0, u))).collect();
        // Far more rounds than any network was seen to need
        for _ in 0..4 * self.ases.len() + 4 {
            let next: HashMap<u32, Line> = self.ases.iter().map(|&u| (u, self.due(u, d, &lines))).collect();
            if next == lines {
                return Some(lines.into_iter().collect());
            }
            lines = next;
        }
        panic!("the lines to {d} do not settle");
    }
}

/// Links to the stable table, into so many words: refusals 1 to 6, then 7, then 8.
pub fn table(links: &[Link], d: u32, words: usize) -> Result<BTreeMap<u32, Line>, No> {
    let net = Network::new(links)?;
    let lines = net.table(d).ok_or((7, 0))?;
    if words < 4 * lines.len() {
        return Err((8, 0));
    }
    Ok(lines)
}
