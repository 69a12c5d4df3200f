//! Damaged sheets and sheets of others, to the judge and to the package's own reading.
use crate::compare::Compare;
use crate::inputs::{text, Random};
use crate::networks::{of_any_shape, one_of};
use crate::{least, rounds, seeded, A};

/// Bytes to the judge and to the reading.
fn both(compare: &mut Compare, text: &[u8], bytes: &[u8]) {
    let _ = compare.judge(text, bytes);
    compare.decode(bytes);
}

/// A sheet with every byte changed in several ways, with every cut, and with bytes and whole lines behind it.
fn damage_all(compare: &mut Compare, r: &mut Random, text: &[u8], sheet: &[u8]) {
    for at in 0..sheet.len() {
        let byte = sheet[at];
        for with in [byte ^ 1, byte.wrapping_add(1), byte.wrapping_sub(1), 0, 255, r.word() as u8] {
            let mut bytes = sheet.to_vec();
            bytes[at] = with;
            both(compare, text, &bytes);
        }
        both(compare, text, &sheet[..at]);
    }
    for more in [1, 10, 11, 22, 65_525, 65_526] {
        both(compare, text, &[sheet, &vec![7; more]].concat());
    }
}

/// A sheet in the right form with a line left out, doubled, swapped or put in.
fn wrong_lines(compare: &mut Compare, r: &mut Random, text: &[u8], sheet: &[u8]) {
    let mut lines: Vec<&[u8]> = sheet[10..].chunks(11).collect();
    let at = r.below(lines.len());
    match r.below(4) {
        0 => drop(lines.remove(at)),
        1 => lines.insert(at, lines[at]),
        2 => lines.swap(at, 0),
        _ => lines.push(&[0, 0, 0, 1, 1, 0, 0, 0, 0, 0, 1]),
    }
    let size = (11 * lines.len() as u16).to_be_bytes();
    both(compare, text, &[&sheet[..8], &size, &lines.concat()].concat());
}

#[test]
fn damaged() {
    let mut compare = Compare::new();
    damage_all(&mut compare, &mut Random::new(1), A, bostuvrel::sheet(A, 40).unwrap().as_bytes());
    for round in 0..rounds(60) {
        let (seed, mut r) = seeded(4, round);
        compare.seed = seed;
        let links = of_any_shape(&mut r, 9);
        let text = text(&links);
        let sheet = bostuvrel::sheet(&text, one_of(&mut r, &links)).unwrap();
        damage_all(&mut compare, &mut r, &text, sheet.as_bytes());
    }
    for round in 0..rounds(2_000) {
        let (seed, mut r) = seeded(5, round);
        compare.seed = seed;
        let links = of_any_shape(&mut r, 30);
        let text = text(&links);
        let sheet = bostuvrel::sheet(&text, one_of(&mut r, &links)).unwrap();
        wrong_lines(&mut compare, &mut r, &text, sheet.as_bytes());
    }
    compare.done(least::SHEETS);
    assert!([1, 7, 10, 11, 12].iter().all(|number| compare.seen.contains(number)), "{:?}", compare.seen);
}

/// A sheet passes for its own destination and network, and with another destination or network only if that makes the same sheet.
#[test]
fn of_others() {
    let mut compare = Compare::new();
    for round in 0..rounds(1_000) {
        let (seed, mut r) = seeded(6, round);
        compare.seed = seed;
        let links = of_any_shape(&mut r, 10);
        let (d, other) = (one_of(&mut r, &links), one_of(&mut r, &links));
        let whole = text(&links);
        let sheet = bostuvrel::sheet(&whole, d).unwrap();
        compare.judge(&whole, sheet.as_bytes()).unwrap();
        // The lines to d under the name of another destination
        let mut renamed = sheet.as_bytes().to_vec();
        renamed[3..7].copy_from_slice(&other.to_be_bytes());
        assert_eq!(compare.judge(&whole, &renamed).is_ok(), other == d, "seed {seed}");
        // The network without its last link, and with its links the other way round
        let fewer = text(&links[..links.len() - 1]);
        let same = bostuvrel::sheet(&fewer, d).is_ok_and(|due| due == sheet);
        assert_eq!(compare.judge(&fewer, sheet.as_bytes()).is_ok(), same, "seed {seed}");
        let turned: Vec<_> = links.iter().map(|l| crate::inputs::Link { a: l.b, b: l.a, ..*l }).collect();
        let same = bostuvrel::sheet(text(&turned), d).is_ok_and(|due| due == sheet);
        assert_eq!(compare.judge(&text(&turned), sheet.as_bytes()).is_ok(), same, "seed {seed}");
    }
    compare.done(4_000);
}
