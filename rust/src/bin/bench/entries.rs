//! The entries that are measured, on one network, with everything lent that they take.
use crate::measure::{in_turn, Times};
use crate::networks::Network;
use crate::plain::{self, No};
use bostuvrel::Link;
use std::hint::black_box;

/// An entry and the ratio to plain Rust that is aimed at.
#[derive(Clone, Copy, PartialEq)]
pub enum Entry {
    Sheet,
    Table,
    Judge,
    Findings,
    Machine,
}

pub const ENTRIES: [Entry; 5] = [Entry::Sheet, Entry::Table, Entry::Judge, Entry::Findings, Entry::Machine];

impl Entry {
    pub fn name(self) -> &'static str {
        match self {
            Entry::Sheet => "text to sheet",
            Entry::Table => "table alone",
            Entry::Judge => "judge",
            Entry::Findings => "findings",
            Entry::Machine => "machine",
        }
    }

    pub fn target(self) -> Option<f64> {
        match self {
            Entry::Sheet | Entry::Judge => Some(0.7),
            Entry::Findings | Entry::Machine => Some(1.0),
            Entry::Table => None,
        }
    }
}

const DELIVERIES: u32 = bostuvrel::MOST_DELIVERIES;

/// A network with its sheet, its links as read, for both, and what is lent to the library; plain Rust is lent copies. None is cleared
/// between calls.
pub struct Bench<'a> {
    network: &'a Network,
    records: Vec<Link>,
    links: Vec<plain::Link>,
    sheet: Vec<u8>,
    bytes: Vec<u8>,
    words: Vec<u32>,
}

fn no(refusal: bostuvrel::Refusal) -> No {
    (u32::from(refusal.number()), refusal.place() as usize)
}

impl Bench<'_> {
    pub fn new(network: &Network) -> Bench<'_> {
        let links = plain::read_text(&network.text).unwrap_or_else(|no| panic!("{}: refused {no:?}", network.name));
        let sheet = bostuvrel::sheet(&network.text, network.destination).unwrap_or_else(|no| panic!("{}: {no}", network.name));
        let records = links.iter().map(|l| Link { a: l.a, b: l.b, relation: l.relation }).collect();
        let (bytes, words) = (vec![0; bostuvrel::LONGEST_SHEET], vec![0; bostuvrel::LONGEST_TABLE]);
        Bench { network, records, links, sheet: sheet.into_bytes(), bytes, words }
    }

    /// Asks that both give the same on this network: on its text, on texts cut short and with a byte changed, and on sheets so.
    pub fn check(&self) {
        let (text, d) = (&self.network.text, self.network.destination);
        self.check_text(text, d);
        self.check_run(text, d, DELIVERIES);
        self.check_text(text, 0);
        for at in [0, 1, text.len() / 3, text.len() / 2, text.len() - 2] {
            self.check_text(&text[..at], d);
            self.check_text(&[&text[..at], b"0", &text[at..]].concat(), d);
            self.check_text(&[&text[..at], &text[at + 1..]].concat(), d);
        }
        for at in 0..self.sheet.len() {
            let mut sheet = self.sheet.clone();
            sheet[at] ^= 1;
            assert!(plain::judge(text, &sheet) == bostuvrel::judge(text, &sheet).map_err(no), "{}: judge", self.network.name);
        }
        self.check_table(d);
    }

    fn check_text(&self, text: &[u8], d: u32) {
        let name = self.network.name;
        let found = bostuvrel::findings(text).map(|found| (found.customer_ring, found.joined)).map_err(no);
        assert!(plain::findings(text) == found, "{name}: findings");
        assert!(plain::judge(text, &self.sheet) == bostuvrel::judge(text, &self.sheet).map_err(no), "{name}: judge");
        let (mut ours, mut theirs) = (self.bytes.clone(), self.bytes.clone());
        assert!(plain::sheet(text, d, &mut theirs) == bostuvrel::sheet_into(text, d, &mut ours).map_err(no), "{name}: sheet");
        assert!(ours == theirs, "{name}: sheet's bytes");
        self.check_run(text, d, 1_000);
    }

    fn check_run(&self, text: &[u8], d: u32, further: u32) {
        let name = self.network.name;
        let (mut ours, mut theirs) = (self.words.clone(), self.words.clone());
        let counts = bostuvrel::run_into(text, d, &[], further, &mut ours).map_err(no);
        let counts = counts.map(|c| (c.deliveries as usize, c.idle as usize, c.quiet));
        assert!(plain::run(text, d, &[], further, &mut theirs) == counts, "{name}: run");
        assert!(ours == theirs, "{name}: run's table");
    }

    fn check_table(&self, d: u32) {
        let (mut ours, mut theirs) = (self.words.clone(), self.words.clone());
        let reply = bostuvrel::stable_table_into(&self.records, d, &mut ours).map(|_| ()).map_err(no);
        assert!(reply == plain::table(&self.links, d, &mut theirs) && ours == theirs, "{}: table", self.network.name);
    }

    /// Medians of an entry by both.
    pub fn time(&mut self, entry: Entry) -> Times {
        let (text, d) = (&self.network.text[..], self.network.destination);
        let (mut bytes, mut words) = (self.bytes.clone(), self.words.clone());
        let (ours, theirs) = (&mut self.bytes, &mut self.words);
        match entry {
            Entry::Sheet => in_turn(
                || _ = black_box(bostuvrel::sheet_into(black_box(text), d, ours)),
                || _ = black_box(plain::sheet(black_box(text), d, &mut bytes)),
            ),
            Entry::Table => in_turn(
                || _ = black_box(bostuvrel::stable_table_into(black_box(&self.records), d, theirs)),
                || _ = black_box(plain::table(black_box(&self.links), d, &mut words)),
            ),
            Entry::Judge => in_turn(
                || _ = black_box(bostuvrel::judge(black_box(text), &self.sheet)),
                || _ = black_box(plain::judge(black_box(text), &self.sheet)),
            ),
            Entry::Findings => in_turn(
                || _ = black_box(bostuvrel::findings(black_box(text))),
                || _ = black_box(plain::findings(black_box(text))),
            ),
            Entry::Machine => in_turn(
                || _ = black_box(bostuvrel::run_into(black_box(text), d, &[], DELIVERIES, theirs)),
                || _ = black_box(plain::run(black_box(text), d, &[], DELIVERIES, &mut words)),
            ),
        }
    }
}
