//! The limits of document 01, from both sides.
use crate::compare::Compare;
use crate::inputs::{chain, core, numbered, text, Link, Numbers, Random};
use crate::second::No;
use crate::{least, A};

const BYTES: usize = bostuvrel::LONGEST_SHEET;
const WORDS: usize = bostuvrel::LONGEST_TABLE;

/// The refusal of a text by all four entries, or none. The destination is in the network, and few deliveries are made.
fn refused(compare: &mut Compare, text: &[u8], d: u32) -> Option<No> {
    let found = compare.findings(text).err();
    let sheet = compare.sheet(text, d, BYTES);
    let ran = compare.run(text, d, &[], 500, WORDS).err();
    let judged = compare.judge(text, sheet.as_deref().unwrap_or(&[])).err();
    assert!(found == ran && found == judged && found == sheet.err(), "the entries differ: {found:?} {ran:?} {judged:?}");
    found
}

/// A text filled up with a comment to so many bytes.
fn filled(text: &[u8], bytes: usize) -> Vec<u8> {
    let mut out = [text, b"#"].concat();
    out.resize(bytes, b'x');
    out
}

/// 1,537 links among 57 ASes.
fn too_many_links() -> Vec<Link> {
    let mut r = Random::new(5);
    let places = core(&mut r, 57, 1_537);
    numbered(&mut r, &places, Numbers::Spread)
}

fn links(compare: &mut Compare) {
    let list = too_many_links();
    let (most, over) = (text(&list[..1_536]), text(&list));
    assert_eq!(refused(compare, &most, list[0].a), None);
    assert_eq!(refused(compare, &over, list[0].a), Some((1, 0)));
    // A bad line in the place of the 1,537th link, and one behind it
    assert_eq!(refused(compare, &[&most[..], b"x\n"].concat(), list[0].a), Some((9, 1_537)));
    assert_eq!(refused(compare, &[&over[..], b"x\n"].concat(), list[0].a), Some((1, 0)));
    // Comments are no links
    assert_eq!(refused(compare, &[b"#\n", &most[..], b"#\n#"].concat(), list[0].a), None);
}

fn ases(compare: &mut Compare) {
    let most = text(&numbered(&mut Random::new(6), &chain(512, true), Numbers::Small));
    assert_eq!(refused(compare, &most, 1), None);
    assert_eq!(refused(compare, &[&most[..], b"1|513|0\n"].concat(), 1), Some((6, 511)));
    // The last link brings in the 512th and the 513th
    let fewer = text(&numbered(&mut Random::new(6), &chain(511, false), Numbers::Small));
    assert_eq!(refused(compare, &[&fewer[..], b"600|601|0\n"].concat(), 1), Some((6, 510)));
}

fn lengths(compare: &mut Compare) {
    for top_down in [true, false] {
        let list: Vec<Link> = chain(512, top_down).iter().map(|l| Link { a: l.a + 1, b: l.b + 1, ..*l }).collect();
        for (d, far) in [(512, 1), (1, 512)] {
            compare.sheet(&text(&list), d, BYTES).unwrap();
            let sheet = bostuvrel::sheet(text(&list), d).unwrap();
            assert_eq!(sheet.line(far).unwrap().length, 511);
            assert_eq!(sheet.walk(far).unwrap().len(), 512);
        }
    }
}

fn bytes(compare: &mut Compare) {
    assert_eq!(refused(compare, &filled(A, 65_536), 40), None);
    assert_eq!(refused(compare, &filled(A, 65_537), 40), Some((1, 0)));
    assert_eq!(refused(compare, &[b'\n'; 65_536], 40), Some((9, 1)));
    assert_eq!(refused(compare, &[b'\n'; 65_537], 40), Some((1, 0)));
    let sheet = compare.sheet(A, 40, BYTES).unwrap();
    for (count, due) in [(65_536, (10, 8)), (65_537, (1, 0))] {
        let long = [&sheet[..], &vec![0; count - sheet.len()]].concat();
        assert_eq!(compare.judge(A, &long), Err(due));
        compare.decode(&long);
    }
}

fn small_texts(compare: &mut Compare) {
    // No links, so no ASes: findings accept, the others do not find the destination or the sheet
    for text in [&b""[..], b"#", b"#\n", b"# 1|2|0\n#"] {
        assert_eq!(compare.findings(text), Ok((false, true)));
        assert_eq!(compare.sheet(text, 1, BYTES), Err((7, 0)));
        assert_eq!(compare.run(text, 1, &[], 1, WORDS).err(), Some((7, 0)));
        assert_eq!(compare.judge(text, b""), Err((10, 0)));
        assert_eq!(compare.judge(text, b"\x01\0\x04\0\0\0\x01\x02\0\0"), Err((7, 0)));
    }
    assert_eq!(refused(compare, b"\n", 1), Some((9, 1)));
    assert_eq!(refused(compare, b"1|2|0\n\n", 1), Some((9, 2)));
    assert_eq!(refused(compare, b"1|2|0", 1), None);
    assert_eq!(refused(compare, b"1|2|0\n#\n2|3|-1", 1), None);
    assert_eq!(refused(compare, b"4294967295|1|0\n", u32::MAX), None);
    assert_eq!(refused(compare, b"1|2|0\n4294967296|1|0\n", 1), Some((9, 2)));
}

fn deliveries(compare: &mut Compare) {
    let list: Vec<u32> = (0..65_537).map(|i| i % 10).collect();
    let ran = compare.run(A, 40, &list[..65_536], 65_536, WORDS).unwrap();
    assert!(ran.quiet && ran.made + ran.idle == 65_536);
    assert_eq!(compare.run(A, 40, &list, 0, WORDS), Err((1, 0)));
    for further in [65_537, u32::MAX] {
        assert_eq!(compare.run(A, 40, &[], further, WORDS), Err((1, 0)));
    }
    assert!(!compare.run(A, 40, &[], 0, WORDS).unwrap().quiet);
}

/// Five ASes take 65 bytes and 20 words.
fn outputs(compare: &mut Compare) {
    for (bytes, due) in [(0, Some((8, 0))), (64, Some((8, 0))), (65, None), (66, None)] {
        assert_eq!(compare.sheet(A, 40, bytes).err(), due);
    }
    for (words, due) in [(0, Some((8, 0))), (19, Some((8, 0))), (20, None), (23, None)] {
        assert_eq!(compare.run(A, 40, &[], 100, words).err(), due);
    }
}

#[test]
fn all_limits() {
    let mut compare = Compare::new();
    for part in [links, ases, lengths, bytes, small_texts, deliveries, outputs] {
        part(&mut compare);
    }
    compare.done(least::LIMITS);
}
