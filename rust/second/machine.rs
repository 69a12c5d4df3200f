//! The message machine.
use super::{read_text, Line, Network, No, MOST_BYTES, MOST_CHOICES};
use std::collections::{BTreeMap, HashMap};

/// Deliveries, idle choices, quiet or not, and the lines of that moment.
#[derive(Debug, PartialEq, Eq)]
pub struct Ran {
    pub made: usize,
    pub idle: usize,
    pub quiet: bool,
    pub lines: BTreeMap<u32, Line>,
}

struct Machine<'a> {
    net: &'a Network,
    d: u32,
    lines: BTreeMap<u32, Line>,
    /// The pair last delivered on a direction; unreachable where there was none
    held: HashMap<usize, (u32, u32)>,
    waiting: BTreeMap<usize, (u32, u32)>,
}

impl Machine<'_> {
    /// Fresh start: origin waits on each direction out of the destination.
    fn fresh(net: &Network, d: u32) -> Machine<'_> {
        let lines = net.ases.iter().map(|&u| (u, if u == d { (1, 0, d) } else { (4, 0, u) })).collect();
        let mut machine = Machine { net, d, lines, held: HashMap::new(), waiting: BTreeMap::new() };
        machine.send(d, (1, 0));
        machine
    }

    /// A pair to every neighbour; it replaces one that waits.
    fn send(&mut self, u: u32, pair: (u32, u32)) {
        for &direction in &self.net.tells[&u] {
            self.waiting.insert(direction, pair);
        }
    }

    /// Delivers what waits on a direction. False where nothing does.
    fn deliver(&mut self, direction: usize) -> bool {
        let Some(pair) = self.waiting.remove(&direction) else { return false };
        self.held.insert(direction, pair);
        let l = self.net.links[direction / 2];
        let u = [l.b, l.a][direction % 2];
        if u != self.d {
            let new = self.net.best(u, |k, _| self.held.get(&k).copied().unwrap_or((4, 0)));
            let old = self.lines.insert(u, new).expect("every AS has a line");
            // A changed next hop alone sends nothing
            if (old.0, old.1) != (new.0, new.1) {
                self.send(u, (new.0, new.1));
            }
        }
        true
    }
}

/// A run of the machine on a text, into a table of so many words: choices, then so many further deliveries, lowest direction first.
pub fn run(text: &[u8], d: u32, choices: &[u32], further: u32, table: usize) -> Result<Ran, No> {
    if text.len() > MOST_BYTES || choices.len() > MOST_CHOICES || further as usize > MOST_CHOICES {
        return Err((1, 0));
    }
    let net = Network::new(&read_text(text)?)?;
    if !net.ases.contains(&d) {
        return Err((7, 0));
    }
    if table < 4 * net.ases.len() {
        return Err((8, 0));
    }
    if let Some(i) = choices.iter().position(|&c| c as usize >= 2 * net.links.len()) {
        return Err((13, i));
    }
    let mut machine = Machine::fresh(&net, d);
    let made = choices.iter().filter(|&&c| machine.deliver(c as usize)).count();
    let idle = choices.len() - made;
    let mut after = 0;
    while after < further as usize {
        let Some((&lowest, _)) = machine.waiting.first_key_value() else { break };
        machine.deliver(lowest);
        after += 1;
    }
    Ok(Ran { made: made + after, idle, quiet: machine.waiting.is_empty(), lines: machine.lines })
}
