//! Link records: the check and the stable table over links in memory, with faults that no text can have.
use crate::compare::Compare;
use crate::inputs::{self, chain, core, numbered, Numbers, Random};
use crate::networks::{of_any_shape, one_of};
use crate::second::No;
use crate::{least, rounds, seeded};
use bostuvrel::{Link, LONGEST_TABLE, MOST_LINKS};

/// Links as records.
pub fn records(links: &[inputs::Link]) -> Vec<Link> {
    links.iter().map(|l| if l.provides { Link::provides(l.a, l.b) } else { Link::peers(l.a, l.b) }).collect()
}

/// Network A of document 01.
pub fn network_a() -> Vec<Link> {
    vec![Link::provides(10, 20), Link::provides(20, 30), Link::provides(30, 40), Link::peers(10, 40), Link::provides(10, 50)]
}

/// Does one thing to a list of records.
fn damage(r: &mut Random, links: &mut Vec<Link>) {
    let (at, from) = (r.below(links.len()), r.below(links.len()));
    match r.below(7) {
        0 => links[at].relation = r.pick(&[2, 3, 255, u32::MAX]),
        1 => links[at].a = 0,
        2 => links[at].b = 0,
        3 => links[at].b = links[at].a,
        4 => links.insert(at, links[from]),
        5 => links.insert(at, Link { a: links[from].b, b: links[from].a, relation: r.pick(&[0, 1, 2]) }),
        _ => links[at] = Link { a: r.word() as u32, b: r.word() as u32, relation: r.word() as u32 },
    }
}

#[test]
fn drawn_at_random() {
    let mut compare = Compare::new();
    for round in 0..rounds(4_000) {
        let (seed, mut r) = seeded(10, round);
        compare.seed = seed;
        let ases = if round % 20 == 0 { 80 } else { 12 };
        let network = of_any_shape(&mut r, ases);
        let (mut links, d) = (records(&network), one_of(&mut r, &network));
        let words = 4 * compare.check_links(&links).unwrap();
        assert_eq!(compare.table(&links, d, words), Ok(words));
        assert_eq!(compare.table(&links, d, words - 1), Err((8, 0)));
        for _ in 0..r.between(1, 3) {
            damage(&mut r, &mut links);
        }
        let _ = compare.check_links(&links);
        let _ = compare.table(&links, d, LONGEST_TABLE);
    }
    compare.done(least::LINKS);
    assert!([2, 3, 4, 5].iter().all(|number| compare.seen.contains(number)));
}

/// The lines over records are those of the sheet of the same links as a text.
#[test]
fn the_same_lines_as_a_sheet() {
    for round in 0..rounds(500) {
        let (seed, mut r) = seeded(11, round);
        let network = of_any_shape(&mut r, 20);
        let d = one_of(&mut r, &network);
        let lines = bostuvrel::stable_table(&records(&network), d).unwrap();
        assert!(bostuvrel::sheet(inputs::text(&network), d).unwrap().lines().eq(lines), "seed {seed}");
    }
}

/// The refusal of records by both entries, or none.
fn refused(compare: &mut Compare, links: &[Link], d: u32) -> Option<No> {
    let checked = compare.check_links(links).err();
    assert_eq!(compare.table(links, d, LONGEST_TABLE).err(), checked);
    checked
}

/// 1,536 and 1,537 records; 512 and 513 ASes; no records.
pub fn limits(compare: &mut Compare) {
    let mut r = Random::new(5);
    let places = core(&mut r, 57, MOST_LINKS + 1);
    let mut many = records(&numbered(&mut r, &places, Numbers::Spread));
    assert_eq!(refused(compare, &many[..MOST_LINKS], many[0].a), None);
    assert_eq!(refused(compare, &many, many[0].a), Some((1, 0)));
    // Too many come before a bad record
    many[0].relation = 2;
    assert_eq!(refused(compare, &many, many[1].a), Some((1, 0)));
    assert_eq!(refused(compare, &many[..MOST_LINKS], many[1].a), Some((3, 0)));
    assert_eq!(refused(compare, &vec![Link::peers(0, 0); 100_000], 1), Some((1, 0)));

    let mut wide = records(&numbered(&mut Random::new(6), &chain(512, true), Numbers::Small));
    assert_eq!(refused(compare, &wide, 1), None);
    wide.push(Link::peers(1, 513));
    assert_eq!(refused(compare, &wide, 1), Some((6, 511)));

    assert_eq!(compare.check_links(&[]), Ok(0));
    assert_eq!(compare.table(&[], 1, LONGEST_TABLE), Err((7, 0)));
}

/// Five ASes take 20 words.
pub fn outputs(compare: &mut Compare) {
    for (words, due) in [(0, Err((8, 0))), (19, Err((8, 0))), (20, Ok(20)), (23, Ok(20))] {
        assert_eq!(compare.table(&network_a(), 40, words), due);
    }
}

/// Within a link 2 to 6, links in list order; then the destination; then the output.
pub fn orders(compare: &mut Compare) {
    let with = |more: &[[u32; 3]]| {
        let records = more.iter().map(|[a, b, relation]| Link { a: *a, b: *b, relation: *relation });
        network_a().into_iter().chain(records).collect::<Vec<Link>>()
    };
    let cases: [(&[[u32; 3]], No); 8] = [
        (&[[0, 7, 2]], (2, 5)),
        (&[[7, 0, 9]], (2, 5)),
        (&[[7, 8, 2]], (3, 5)),
        (&[[7, 7, 2]], (3, 5)),
        (&[[20, 10, u32::MAX]], (3, 5)),
        (&[[7, 7, 1], [7, 8, 2]], (4, 5)),
        (&[[40, 10, 1], [7, 8, 2]], (5, 5)),
        (&[[7, 8, 1], [8, 9, 2], [0, 0, 0]], (3, 6)),
    ];
    for (more, due) in cases {
        assert_eq!(compare.check_links(&with(more)), Err(due));
        // The destination is in no network, and nothing is lent to write into: both come later
        assert_eq!(compare.table(&with(more), 77, 0), Err(due));
    }
    assert_eq!(compare.table(&network_a(), 77, 0), Err((7, 0)));
    assert_eq!(compare.table(&network_a(), 0, 0), Err((7, 0)));
    assert_eq!(compare.table(&network_a(), 40, 0), Err((8, 0)));
}

#[test]
fn all_limits() {
    let mut compare = Compare::new();
    limits(&mut compare);
    outputs(&mut compare);
    compare.done(18);
}
