//! Two faults at once: the order of refusals at each entry. Together the cases meet every number that an entry can give.
use crate::compare::Compare;
use crate::second::No;
use crate::{least, links, A};

const BYTES: usize = bostuvrel::LONGEST_SHEET;

/// The refusals of texts in their order: lines, then links in list order, within a link 2, 4, 5, 6.
const TEXTS: [(&[u8], No); 12] = [
    (b"0|1|0\nx\n", (9, 2)),
    (b"x\ny\n", (9, 1)),
    (b"#\n\n1|2|3\n", (9, 2)),
    (b"1|2|0\n3|0|0\n4|4|0\n", (2, 1)),
    (b"1|2|0\n0|3|-1\n", (2, 1)),
    (b"0|0|0\n", (2, 0)),
    (b"1|2|0\n4|4|0\n3|0|0\n", (4, 1)),
    (b"1|2|0\n#\n2|1|-1\n3|3|0\n", (5, 1)),
    (b"1|2|0\n1|2|0\n", (5, 1)),
    (b"1|2|-1\n2|3|-1\n3|1|-1\n1|3|0\n", (5, 3)),
    (b"5|5|0\n5|5|0\n", (4, 0)),
    (b"1|2|0\n01|2|0\n", (9, 2)),
];

fn of_texts(compare: &mut Compare) {
    let wide = [A, &[b'#'; 65_536]].concat();
    let many: Vec<u8> = (1..=513).flat_map(|i| format!("{i}|{}|-1\n", i + 1).into_bytes()).collect();
    let all = TEXTS.into_iter().chain([(&wide[..], (1, 0)), (&many[..], (6, 511))]);
    for (text, due) in all {
        assert_eq!(compare.findings(text), Err(due));
        // The destination is in no text, and nothing is lent to write into: both come later
        assert_eq!(compare.sheet(text, 77, 0), Err(due));
        assert_eq!(compare.run(text, 77, &[999], 0, 0), Err(due));
        // Nor is this a sheet
        assert_eq!(compare.judge(text, b"?"), Err(due));
    }
}

fn of_sheets_and_runs(compare: &mut Compare) {
    assert_eq!(compare.sheet(A, 77, 0), Err((7, 0)));
    assert_eq!(compare.sheet(A, 0, 0), Err((7, 0)));
    assert_eq!(compare.sheet(A, 40, 64), Err((8, 0)));
    assert_eq!(compare.run(A, 77, &[99], 0, 0), Err((7, 0)));
    assert_eq!(compare.run(A, 40, &[99], 0, 19), Err((8, 0)));
    // The first choice that is none, before any is run
    assert_eq!(compare.run(A, 40, &[7, 8, 10, 11], 5, 20), Err((13, 2)));
    assert_eq!(compare.run(A, 40, &[u32::MAX], 65_536, 20), Err((13, 0)));
    // Limits on choices and deliveries come before the text
    assert_eq!(compare.run(b"x", 40, &[], 65_537, 20), Err((1, 0)));
    assert_eq!(compare.run(b"x", 40, &vec![0; 65_537], 0, 20), Err((1, 0)));
}

/// The sheet to 40 with some bytes changed.
fn changed(changes: &[(usize, u8)]) -> Vec<u8> {
    let mut bytes = bostuvrel::sheet(A, 40).unwrap().into_bytes();
    for (at, with) in changes {
        bytes[*at] = *with;
    }
    bytes
}

/// Line i of the sheet begins at byte 10 + 11 i: AS (4), type (1), length (2), next hop (4).
fn of_judgements(compare: &mut Compare) {
    let cases: [(&[(usize, u8)], No); 14] = [
        (&[(7, 3), (6, 77)], (10, 7)),
        (&[(9, 56), (0, 2)], (10, 0)),
        (&[(9, 56)], (10, 8)),
        (&[(8, 1), (6, 77)], (10, 8)),
        // No such destination, and a line that cannot stand
        (&[(6, 77), (14, 9)], (7, 0)),
        // A line 4 that cannot stand before a line 0 that is not best
        (&[(58, 0), (15, 0), (16, 9)], (11, 4)),
        (&[(14, 5)], (11, 0)),
        (&[(24, 11)], (11, 1)),
        // Type 4 with a length; a length of 512; of 511
        (&[(58, 4)], (11, 4)),
        (&[(59, 2), (60, 0)], (11, 4)),
        (&[(59, 1), (60, 255)], (12, 4)),
        // P10; the destination's line not origin; the next hop alone
        (&[(60, 2)], (12, 4)),
        (&[(53, 10)], (12, 3)),
        (&[(20, 50)], (12, 0)),
    ];
    for (changes, due) in cases {
        assert_eq!(compare.judge(A, &changed(changes)), Err(due), "{changes:?}");
    }
    // 30's length 5: 20's line is no longer the best of the lines as printed
    assert_eq!(compare.judge(A, &changed(&[(38, 5)])), Err((12, 1)));
    assert_eq!(compare.judge(A, &changed(&[])), Ok(()));
    // The limit on a sheet comes before the text
    assert_eq!(compare.judge(b"x", &vec![0; 65_537]), Err((1, 0)));
    assert_eq!(compare.judge(b"x", b""), Err((9, 1)));
}

/// A loop round a customer ring, in which every line is as good as the one that it names, does not pass.
fn of_a_loop(compare: &mut Compare) {
    let ring = b"1|2|-1\n2|3|-1\n3|1|-1\n4|5|0\n";
    let mut bytes = compare.sheet(ring, 5, BYTES).unwrap();
    for (line, next) in [(0, 2), (1, 3), (2, 1)] {
        let at = 10 + 11 * line;
        bytes[at + 4..at + 11].copy_from_slice(&[1, 0, 7, 0, 0, 0, next]);
    }
    assert_eq!(compare.judge(ring, &bytes), Err((12, 0)));
    compare.decode(&bytes);
}

/// Number 3 is met by link records alone: a text gives the relations 0 and 1 only. Of number 8 the place 1 cannot be met: the working
/// room is the library's own. At records 9 to 13 cannot be met, since they are no text and no sheet and there are no choices. At a sheet 10 to 13 cannot be met, since its table is the library's own; at the judge 8 and 13 cannot, since it writes nothing
/// and takes no choices; at findings 7, 8 and 10 to 13 cannot, for both reasons; at a run 10 to 12 cannot.
#[test]
fn every_refusal_in_its_order() {
    let mut compare = Compare::new();
    of_texts(&mut compare);
    of_sheets_and_runs(&mut compare);
    of_judgements(&mut compare);
    of_a_loop(&mut compare);
    links::orders(&mut compare);
    compare.done(least::ORDERS);
    assert!(compare.seen.into_iter().eq(1..=13));
}
