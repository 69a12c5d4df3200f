//! The plain implementation that benchmarks measure against gives what the library gives.
use crate::compare::no;
use crate::inputs::{damaged, text};
use crate::networks::{of_any_shape, one_of};
use crate::{plain, rounds, seeded};

/// All entries of both on one text. How many replies were compared.
fn all_entries(seed: u64, text: &[u8], d: u32, sheet: &[u8]) -> usize {
    let inputs = format!("seed {seed}, destination {d}\nb\"{}\"\nsheet b\"{}\"", text.escape_ascii(), sheet.escape_ascii());
    let found = bostuvrel::findings(text).map(|f| (f.customer_ring, f.joined)).map_err(no);
    assert_eq!(plain::findings(text), found, "{inputs}");
    assert_eq!(plain::judge(text, sheet), bostuvrel::judge(text, sheet).map_err(no), "{inputs}");

    let (mut ours, mut theirs) = ([7; bostuvrel::LONGEST_SHEET], [7; bostuvrel::LONGEST_SHEET]);
    let written = bostuvrel::sheet_into(text, d, &mut ours).map_err(no);
    assert_eq!(plain::sheet(text, d, &mut theirs), written, "{inputs}");
    assert!(ours == theirs, "{inputs}");

    let (mut ours, mut theirs) = ([7; bostuvrel::LONGEST_TABLE], [7; bostuvrel::LONGEST_TABLE]);
    let counts = bostuvrel::run_into(text, d, &[3, 0, 1, 3], 65_536, &mut ours).map_err(no);
    let counts = counts.map(|c| (c.deliveries as usize, c.idle as usize, c.quiet));
    assert_eq!(plain::run(text, d, &[3, 0, 1, 3], 65_536, &mut theirs), counts, "{inputs}");
    assert!(ours == theirs, "{inputs}");

    // The table alone: refused as the sheet is, or that of the quiet machine
    let tabled = plain::read_text(text).and_then(|links| plain::table(&links, d, &mut theirs));
    assert_eq!(tabled.err(), written.err(), "{inputs}");
    assert!(!counts.is_ok_and(|(_, _, quiet)| quiet) || ours == theirs, "{inputs}");
    5
}

#[test]
fn gives_the_same() {
    let mut cases = 0;
    for round in 0..rounds(1_000) {
        let (seed, mut r) = seeded(8, round);
        let links = of_any_shape(&mut r, 14);
        let (whole, d) = (text(&links), one_of(&mut r, &links));
        let sheet = bostuvrel::sheet(&whole, d).unwrap().into_bytes();
        cases += all_entries(seed, &whole, d, &sheet);
        let mut bytes = sheet.clone();
        let at = r.below(bytes.len());
        bytes[at] = r.word() as u8;
        bytes.truncate(bytes.len() - if r.chance(20) { r.below(bytes.len()) } else { 0 });
        cases += all_entries(seed, &damaged(&mut r, &whole), d, &bytes);
        cases += all_entries(seed, &whole, d, &bytes);
    }
    println!("{cases} cases");
    assert!(cases >= 15_000, "{cases} cases");
}
