//! Networks of many shapes: findings, sheets, judge and quiet runs.
use crate::compare::Compare;
use crate::inputs::{any, chain, core, hierarchy, hubs, numbered, star, text, turned, Link, Numbers, Random};
use crate::{least, rounds, seeded};

/// A network of up to so many ASes in any shape, its ASes numbered either way.
pub fn of_any_shape(r: &mut Random, ases: usize) -> Vec<Link> {
    let ases = r.between(2, ases);
    let places = match r.below(8) {
        0 | 1 => any(r, ases, ases * 2, true),
        2 => any(r, ases, ases, true),
        3 => any(r, ases, ases * 2, false),
        4 => hierarchy(r, ases, ases * 3),
        5 => core(r, ases.min(24), 300),
        6 => [chain(ases, true), chain(ases, false), star(ases)][r.below(3)].clone(),
        _ => hubs(ases, r.between(1, 4).min(ases)),
    };
    let numbers = r.pick(&[Numbers::Small, Numbers::Spread]);
    let links = numbered(r, &places, numbers);
    turned(r, &links)
}

/// One of a network's ASes.
pub fn one_of(r: &mut Random, links: &[Link]) -> u32 {
    let link = r.pick(links);
    r.pick(&[link.a, link.b])
}

/// Findings, sheet, judge, and a run without choices that may make so many deliveries.
fn all_entries(compare: &mut Compare, links: &[Link], d: u32, further: u32) {
    let text = text(links);
    compare.findings(&text).unwrap();
    let sheet = compare.sheet(&text, d, bostuvrel::LONGEST_SHEET).unwrap();
    compare.judge(&text, &sheet).unwrap();
    compare.run(&text, d, &[], further, bostuvrel::LONGEST_TABLE).unwrap();
}

#[test]
fn small_and_middling() {
    let mut compare = Compare::new();
    for round in 0..rounds(6_000) {
        let (seed, mut r) = seeded(1, round);
        compare.seed = seed;
        let ases = if round % 20 == 0 { 80 } else { 12 };
        let links = of_any_shape(&mut r, ases);
        let d = one_of(&mut r, &links);
        all_entries(&mut compare, &links, d, 65_536);
    }
    compare.done(least::NETWORKS);
}

/// The shapes at full size. The machine makes few deliveries here, which is many enough to fill every direction.
#[test]
fn full_size() {
    let mut compare = Compare::new();
    for round in 0..rounds(4) {
        let (seed, mut r) = seeded(2, round);
        compare.seed = seed;
        let shapes = [
            hierarchy(&mut r, 512, 1_536),
            hierarchy(&mut r, 300, 900),
            any(&mut r, 512, 1_536, true),
            any(&mut r, 200, 1_536, false),
            core(&mut r, 56, 1_536),
            hubs(512, 3),
            star(512),
            chain(512, true),
            chain(512, false),
        ];
        for places in shapes {
            let links = numbered(&mut r, &places, Numbers::Spread);
            let d = one_of(&mut r, &links);
            all_entries(&mut compare, &links, d, 2_000);
        }
    }
    compare.done(144);
}

/// Whole runs at full size.
#[test]
fn full_runs() {
    let mut compare = Compare::new();
    let (seed, mut r) = seeded(9, 0);
    compare.seed = seed;
    for places in [hierarchy(&mut r, 512, 1_536), any(&mut r, 120, 1_536, true), hubs(512, 3)] {
        let links = numbered(&mut r, &places, Numbers::Spread);
        let d = one_of(&mut r, &links);
        all_entries(&mut compare, &links, d, 65_536);
    }
    compare.done(12);
}
