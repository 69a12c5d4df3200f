//! The stable table in three phases: customer lines by a queue, peer lines by one look, provider lines by buckets of equal length.
use super::network::{Lists, Network};

/// Type, length and the next hop's place.
#[derive(Clone, Copy)]
pub struct Line {
    pub typ: u32,
    pub length: u32,
    pub next: u32,
}

impl Line {
    pub fn unreachable(place: usize) -> Line {
        Line { typ: 4, length: 0, next: place as u32 }
    }

    /// Takes an offer of type `typ` if there is no line yet, or if it ties and the neighbour's number is smaller. Whether it is the first.
    fn take(&mut self, typ: u32, length: u32, from: u32) -> bool {
        if self.typ == 4 {
            *self = Line { typ, length, next: from };
            return true;
        }
        if self.typ == typ && self.length == length && from < self.next {
            self.next = from;
        }
        false
    }
}

const NONE: u32 = u32::MAX;

pub fn stable(net: &Network, d: usize) -> Vec<Line> {
    let mut lines: Vec<Line> = (0..net.ases.len()).map(Line::unreachable).collect();
    lines[d] = Line { typ: 1, length: 0, next: d as u32 };
    customer_lines(net, d, &mut lines);
    peer_lines(net, &mut lines);
    provider_lines(net, &mut lines);
    lines
}

/// Breadth first from the destination up to providers.
fn customer_lines(net: &Network, d: usize, lines: &mut [Line]) {
    let providers: Lists<u32> = Lists::of(lines.len(), net.customer_links().map(|l| (l.b, l.a)));
    let mut queue = Vec::with_capacity(lines.len());
    queue.push(d as u32);
    let mut at = 0;
    while at < queue.len() {
        let u = queue[at];
        let length = lines[u as usize].length + 1;
        for p in providers.at(u as usize) {
            // The destination's own line has length 0, which no offer ties with
            if lines[*p as usize].take(1, length, u) {
                queue.push(*p);
            }
        }
        at += 1;
    }
}

/// The best customer line of a peer, for those without a customer line.
fn peer_lines(net: &Network, lines: &mut [Line]) {
    for l in net.links.iter().filter(|l| !l.provides) {
        for (u, v) in [(l.a, l.b), (l.b, l.a)] {
            let (own, told) = (lines[u as usize], lines[v as usize]);
            let better = own.typ == 4 || (own.typ == 2 && (told.length + 1, v) < (own.length, own.next));
            if told.typ == 1 && better {
                lines[u as usize] = Line { typ: 2, length: told.length + 1, next: v };
            }
        }
    }
}

/// Down to customers, shorter lines first. Each AS with a line is in the bucket of its length, as a chain through `behind`.
fn provider_lines(net: &Network, lines: &mut [Line]) {
    let customers: Lists<u32> = Lists::of(lines.len(), net.customer_links().map(|l| (l.a, l.b)));
    let mut first = vec![NONE; lines.len() + 2];
    let mut behind = vec![NONE; lines.len()];
    for (u, line) in lines.iter().enumerate().filter(|(_, line)| line.typ != 4) {
        behind[u] = std::mem::replace(&mut first[line.length as usize], u as u32);
    }
    for length in 0..lines.len() {
        let mut u = first[length];
        while u != NONE {
            for c in customers.at(u as usize) {
                if lines[*c as usize].take(3, length as u32 + 1, u) {
                    behind[*c as usize] = std::mem::replace(&mut first[length + 1], *c);
                }
            }
            u = behind[u as usize];
        }
    }
}

/// Four words for each AS.
pub fn write(net: &Network, lines: &[Line], words: &mut [u32]) {
    for ((number, line), entry) in net.ases.iter().zip(lines).zip(words.chunks_exact_mut(4)) {
        entry.copy_from_slice(&[*number, line.typ, line.length, net.ases[line.next as usize]]);
    }
}
