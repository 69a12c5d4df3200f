//! Permitted walks: provider links, then at most one peer link, then customer links.
use super::{Line, Network};
use std::collections::{BTreeMap, BTreeSet};

/// The ASes from which `steps` lead into a set, the set included, at however many removes.
fn closed(net: &Network, start: BTreeSet<u32>, kind: u32) -> BTreeSet<u32> {
    let mut all = start;
    loop {
        let more: Vec<u32> =
            net.ases.iter().copied().filter(|u| !all.contains(u) && net.neighbours(*u, kind).any(|v| all.contains(&v))).collect();
        if more.is_empty() {
            return all;
        }
        all.extend(more);
    }
}

/// The type of each AS by permitted walks alone: the best kind of a first link of such walks to d, 4 where there is none, 1 for d.
pub fn types(net: &Network, d: u32) -> BTreeMap<u32, u32> {
    let down = closed(net, BTreeSet::from([d]), 1);
    let across: BTreeSet<u32> =
        net.ases.iter().copied().filter(|u| down.contains(u) || net.neighbours(*u, 2).any(|v| down.contains(&v))).collect();
    let any = closed(net, across, 3);
    let best = |u: u32| {
        if u == d || net.neighbours(u, 1).any(|v| down.contains(&v)) {
            1
        } else if net.neighbours(u, 2).any(|v| down.contains(&v)) {
            2
        } else if net.neighbours(u, 3).any(|v| any.contains(&v)) {
            3
        } else {
            4
        }
    };
    net.ases.iter().map(|&u| (u, best(u))).collect()
}

/// Whether a walk, from source to destination, is permitted: each step a link, and kinds in the right order.
fn permitted(net: &Network, walk: &[u32]) -> bool {
    let mut kinds = Vec::new();
    for step in walk.windows(2) {
        let Some(heard) = net.hears[&step[0]].iter().find(|heard| heard.1 == step[1]) else { return false };
        kinds.push(heard.2);
    }
    let provider_links = kinds.iter().take_while(|kind| **kind == 3).count();
    let rest = &kinds[provider_links..];
    let rest = if rest.first() == Some(&2) { &rest[1..] } else { rest };
    rest.iter().all(|kind| *kind == 1)
}

/// What is wrong with the walk from u by the lines' next hops: it must arrive at d, visit no AS twice, be permitted, begin with a
/// link of the printed type and have the printed length.
pub fn follow(net: &Network, d: u32, lines: &BTreeMap<u32, Line>, u: u32) -> Result<(), String> {
    let mut walk = vec![u];
    let mut at = u;
    while at != d {
        let next = lines[&at].2;
        if walk.contains(&next) {
            return Err(format!("from {u} it comes to {next} twice: {walk:?}"));
        }
        walk.push(next);
        at = next;
    }
    if !permitted(net, &walk) {
        return Err(format!("from {u} the walk {walk:?} is not permitted"));
    }
    if walk.len() - 1 != lines[&u].1 as usize {
        return Err(format!("from {u} the walk {walk:?} has not the printed length {}", lines[&u].1));
    }
    let first = walk.get(1).map_or(1, |v| net.hears[&u].iter().find(|heard| heard.1 == *v).map_or(0, |heard| heard.2));
    if first != lines[&u].0 {
        return Err(format!("from {u} the walk {walk:?} does not begin with a link of type {}", lines[&u].0));
    }
    Ok(())
}
