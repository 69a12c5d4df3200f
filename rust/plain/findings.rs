//! The two findings, each in one go over the links.
use super::network::{Lists, Network};

/// ASes without providers are taken away, and then those that have none left; a ring is there if one AS stays.
pub fn ring(net: &Network) -> bool {
    let customers: Lists<u32> = Lists::of(net.ases.len(), net.customer_links().map(|l| (l.a, l.b)));
    let mut left = providers(net);
    let mut gone: Vec<u32> = (0..net.ases.len() as u32).filter(|u| left[*u as usize] == 0).collect();
    let mut at = 0;
    while at < gone.len() {
        for c in customers.at(gone[at] as usize) {
            left[*c as usize] -= 1;
            if left[*c as usize] == 0 {
                gone.push(*c);
            }
        }
        at += 1;
    }
    gone.len() < net.ases.len()
}

/// As many peer links between tops as there are pairs of tops; no pair is listed twice.
pub fn joined(net: &Network) -> bool {
    let providers = providers(net);
    let is_top = |u: u32| providers[u as usize] == 0;
    let tops = providers.iter().filter(|count| **count == 0).count();
    let between = net.links.iter().filter(|l| !l.provides && is_top(l.a) && is_top(l.b)).count();
    between == tops * tops.saturating_sub(1) / 2
}

/// How many providers each AS has.
fn providers(net: &Network) -> Vec<u32> {
    let mut count = vec![0; net.ases.len()];
    for l in net.customer_links() {
        count[l.b as usize] += 1;
    }
    count
}
