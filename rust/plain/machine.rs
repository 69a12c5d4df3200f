//! The message machine: pairs of directions in arrays, waiting directions in an ordered set.
use super::network::{Lists, Network};
use super::table::Line;
use super::Counts;
use std::collections::BTreeSet;

/// A direction by which an AS hears a neighbour of some kind.
#[derive(Clone, Copy, Default)]
struct Heard {
    direction: u32,
    kind: u32,
    teller: u32,
}

pub struct Machine<'a> {
    net: &'a Network,
    d: usize,
    pub lines: Vec<Line>,
    hears: Lists<Heard>,
    tells: Lists<u32>,
    /// Type and length of what each direction holds, and of what was last sent on it.
    held: Vec<(u32, u32)>,
    sent: Vec<(u32, u32)>,
    waiting: BTreeSet<u32>,
}

impl<'a> Machine<'a> {
    pub fn fresh(net: &'a Network, d: usize) -> Machine<'a> {
        let ases = net.ases.len();
        let directions = (0..).step_by(2).zip(&net.links);
        let heard = directions.clone().flat_map(|(k, l)| {
            let (heard_by_b, heard_by_a) = if l.provides { (3, 1) } else { (2, 2) };
            let to_b = Heard { direction: k, kind: heard_by_b, teller: l.a };
            let to_a = Heard { direction: k + 1, kind: heard_by_a, teller: l.b };
            [(l.b, to_b), (l.a, to_a)]
        });
        let hears = Lists::of(ases, heard);
        let tells = Lists::of(ases, directions.flat_map(|(k, l)| [(l.a, k), (l.b, k + 1)]));
        let mut lines: Vec<Line> = (0..ases).map(Line::unreachable).collect();
        lines[d] = Line { typ: 1, length: 0, next: d as u32 };
        let none = vec![(4, 0); 2 * net.links.len()];
        let mut machine = Machine { net, d, lines, hears, tells, held: none.clone(), sent: none, waiting: BTreeSet::new() };
        machine.send(d, (1, 0));
        machine
    }

    fn send(&mut self, u: usize, pair: (u32, u32)) {
        for direction in self.tells.at(u) {
            self.sent[*direction as usize] = pair;
            self.waiting.insert(*direction);
        }
    }

    /// The receiver of a direction on which something waited hears it, elects anew, and tells of a change.
    fn deliver(&mut self, direction: u32) {
        let k = direction as usize;
        self.held[k] = self.sent[k];
        let l = self.net.links[k / 2];
        let u = [l.b, l.a][k % 2] as usize;
        if u == self.d {
            return;
        }
        let mut best = (4, 0, u as u32);
        for heard in self.hears.at(u) {
            let (typ, length) = self.held[heard.direction as usize];
            if typ == 1 || (heard.kind == 3 && typ < 4) {
                best = best.min((heard.kind, length + 1, heard.teller));
            }
        }
        let old = self.lines[u];
        self.lines[u] = Line { typ: best.0, length: best.1, next: best.2 };
        if (old.typ, old.length) != (best.0, best.1) {
            self.send(u, (best.0, best.1));
        }
    }

    pub fn run(&mut self, choices: &[u32], further: usize) -> Counts {
        let mut made = 0;
        for choice in choices {
            if self.waiting.remove(choice) {
                self.deliver(*choice);
                made += 1;
            }
        }
        let idle = choices.len() - made;
        for _ in 0..further {
            let Some(lowest) = self.waiting.pop_first() else { break };
            self.deliver(lowest);
            made += 1;
        }
        (made, idle, self.waiting.is_empty())
    }
}
