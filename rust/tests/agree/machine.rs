//! Runs of the message machine: choices, idle ones, small budgets.
use crate::compare::Compare;
use crate::inputs::{text, Random};
use crate::networks::{of_any_shape, one_of};
use crate::{least, rounds, seeded, A};

/// Choices among so many directions; now and then one that is none.
fn choices(r: &mut Random, directions: usize) -> Vec<u32> {
    let longest = r.pick(&[0, 3, 20, 200]);
    let count = r.between(0, longest);
    let mut list: Vec<u32> = (0..count).map(|_| r.below(directions) as u32).collect();
    if count > 0 && r.chance(10) {
        list[r.below(count)] = r.pick(&[directions as u32, directions as u32 + 7, u32::MAX]);
    }
    list
}

#[test]
fn drawn_at_random() {
    let mut compare = Compare::new();
    for round in 0..rounds(6_000) {
        let (seed, mut r) = seeded(7, round);
        compare.seed = seed;
        let ases = if round % 10 == 0 { 40 } else { 10 };
        let links = of_any_shape(&mut r, ases);
        let (text, d) = (text(&links), one_of(&mut r, &links));
        let list = choices(&mut r, 2 * links.len());
        let further = r.pick(&[0, 1, 2, 10, 50, 65_536]);
        let ran = compare.run(&text, d, &list, further, bostuvrel::LONGEST_TABLE);
        if let Ok(ran) = ran {
            assert!(ran.made + ran.idle >= list.len() && ran.made <= list.len() + further as usize, "seed {seed}");
        }
        // The same choices, and then until nothing waits
        let _ = compare.run(&text, d, &list, 65_536, bostuvrel::LONGEST_TABLE);
    }
    compare.done(least::MACHINE);
    assert!(compare.seen.contains(&13));
}

/// P5 to P7 of document 01, and each shorter list of P6's deliveries.
#[test]
fn worked_examples() {
    let mut compare = Compare::new();
    let mut counts = |list: &[u32], further| {
        let ran = compare.run(A, 40, list, further, 20).unwrap();
        (ran.made, ran.idle, ran.quiet)
    };
    assert_eq!(counts(&[], 65_536), (10, 0, true));
    assert_eq!(counts(&[7, 8], 65_536), (16, 0, true));
    assert_eq!(counts(&[7, 8], 0), (2, 0, false));
    assert_eq!(counts(&[7, 8, 7], 0), (2, 1, false));
    for further in 0..=14 {
        assert_eq!(counts(&[7, 8], further), (2 + further as usize, 0, further == 14));
    }
    assert_eq!(compare.run(A, 40, &[7, 8], 0, 20).unwrap().lines[&50], (3, 2, 10));
}
