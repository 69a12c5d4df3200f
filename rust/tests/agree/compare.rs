//! One input to both, and what came back compared.
use crate::second::{self, Line, Network, No, Ran};
use bostuvrel::Link;
use std::collections::{BTreeMap, BTreeSet};

/// Cases so far and the refusal numbers that they met. The seed of the case at hand is kept for who reads a failure; 0 for fixed cases.
#[derive(Default)]
pub struct Compare {
    pub seed: u64,
    pub cases: usize,
    pub seen: BTreeSet<u32>,
}

/// Number and place as the second program gives them.
pub fn no(refusal: bostuvrel::Refusal) -> No {
    (u32::from(refusal.number()), refusal.place() as usize)
}

/// Bytes to lend that differ from their neighbours, so that a stray write shows.
fn pattern(count: usize) -> Vec<u8> {
    (0..count).map(|i| (i * 37 + 11) as u8).collect()
}

/// Words to lend, as `pattern`.
fn pattern_words(count: usize) -> Vec<u32> {
    (0..count).map(|i| 0x9e37_79b1_u32.wrapping_mul(i as u32 + 1)).collect()
}

/// The four words of each line, as a table has them.
fn table_words(lines: &BTreeMap<u32, Line>) -> Vec<u32> {
    lines.iter().flat_map(|(u, line)| [*u, line.0, line.1, line.2]).collect()
}

/// Records as the second program has them.
fn as_second(links: &[Link]) -> Vec<second::Link> {
    links.iter().map(|l| second::Link { a: l.a, b: l.b, relation: l.relation }).collect()
}

impl Compare {
    pub fn new() -> Compare {
        Compare::default()
    }

    /// Says how many cases there were, and asks that they are so many at least.
    pub fn done(&self, least: usize) {
        println!("{} cases, refusals {:?}", self.cases, self.seen);
        assert!(self.cases >= least, "{} cases of {least}", self.cases);
    }

    /// Counts a case and asks that the two agree.
    fn agree<T: PartialEq + std::fmt::Debug>(&mut self, library: &Result<T, No>, other: &Result<T, No>, inputs: &str) {
        self.cases += 1;
        if let Err((number, _)) = library {
            self.seen.insert(*number);
        }
        assert!(library == other, "seed {}\nlibrary: {library:?}\nsecond:  {other:?}\n{inputs}", self.seed);
    }

    /// Asks that something holds of the case at hand.
    fn holds(&self, fact: bool, what: &str, inputs: &str) {
        assert!(fact, "seed {}\n{what}\n{inputs}", self.seed);
    }

    /// Text to sheet into so many bytes. An accepted sheet is followed. What both say.
    pub fn sheet(&mut self, text: &[u8], d: u32, bytes: usize) -> Result<Vec<u8>, No> {
        let inputs = format!("sheet to {d} into {bytes} bytes of b\"{}\"", text.escape_ascii());
        let (lent_text, before) = (text.to_vec(), pattern(bytes));
        let mut lent = before.clone();
        let library = bostuvrel::sheet_into(&lent_text, d, &mut lent).map(|n| lent[..n].to_vec()).map_err(no);
        let other = second::text_to_sheet(text, d, bytes);
        self.agree(&library, &other, &inputs);
        let written = library.as_ref().map_or(0, Vec::len);
        self.holds(lent[written..] == before[written..] && lent_text == text, "lent memory is changed", &inputs);
        if let Ok(sheet) = &library {
            self.follow(text, sheet, &inputs);
        }
        library
    }

    /// Demand 3 on an accepted sheet: types are those of the permitted walks, and each line's walk is as printed.
    fn follow(&self, text: &[u8], sheet: &[u8], inputs: &str) {
        let net = Network::new(&second::read_text(text).unwrap()).unwrap();
        let (d, lines) = second::read_sheet(sheet).unwrap();
        let lines: BTreeMap<u32, Line> = lines.into_iter().collect();
        for (u, typ) in second::types(&net, d) {
            self.holds(lines[&u].0 == typ, &format!("the type of {u} is not {typ}"), inputs);
            if typ == 4 {
                self.holds(lines[&u] == (4, 0, u), &format!("{u} is not marked unreachable"), inputs);
            } else if let Err(what) = second::follow(&net, d, &lines, u) {
                self.holds(false, &what, inputs);
            }
        }
    }

    /// The judge on any bytes. What both say.
    pub fn judge(&mut self, text: &[u8], sheet: &[u8]) -> Result<(), No> {
        let inputs = format!("judge b\"{}\"\nfor b\"{}\"", sheet.escape_ascii(), text.escape_ascii());
        let (lent_text, lent_sheet) = (text.to_vec(), sheet.to_vec());
        let library = bostuvrel::judge(&lent_text, &lent_sheet).map_err(no);
        self.agree(&library, &second::judge(text, sheet), &inputs);
        self.holds(lent_text == text && lent_sheet == sheet, "lent memory is changed", &inputs);
        library
    }

    /// The two findings. What both say: ring, joined.
    pub fn findings(&mut self, text: &[u8]) -> Result<(bool, bool), No> {
        let inputs = format!("findings on b\"{}\"", text.escape_ascii());
        let lent_text = text.to_vec();
        let library = bostuvrel::findings(&lent_text).map(|found| (found.customer_ring, found.joined)).map_err(no);
        let other = second::read_text(text).and_then(|links| second::findings(&links));
        self.agree(&library, &other, &inputs);
        self.holds(lent_text == text, "lent memory is changed", &inputs);
        library
    }

    /// A run into a table of so many words. A quiet table's sheet must pass the judge. What both say.
    pub fn run(&mut self, text: &[u8], d: u32, choices: &[u32], further: u32, words: usize) -> Result<Ran, No> {
        let inputs =
            format!("run to {d}, choices {choices:?}, {further} further, into {words} words, on b\"{}\"", text.escape_ascii());
        let (lent_text, lent_choices, before) = (text.to_vec(), choices.to_vec(), pattern_words(words));
        let mut lent = before.clone();
        let counts = bostuvrel::run_into(&lent_text, d, &lent_choices, further, &mut lent);
        let library = counts.map(|c| (c.deliveries as usize, c.idle as usize, c.quiet)).map_err(no);
        let other = second::run(text, d, choices, further, words);
        let other_counts = other.as_ref().map(|ran| (ran.made, ran.idle, ran.quiet)).map_err(|refused| *refused);
        self.agree(&library, &other_counts, &inputs);
        let due = other.as_ref().map_or(Vec::new(), |ran| table_words(&ran.lines));
        self.holds(lent[..due.len()] == due, "the tables differ", &inputs);
        self.holds(lent[due.len()..] == before[due.len()..], "lent memory is changed", &inputs);
        self.holds(lent_text == text && lent_choices == choices, "lent memory is changed", &inputs);
        if let Some(ran) = other.as_ref().ok().filter(|ran| ran.quiet) {
            self.holds(bostuvrel::judge(text, second::sheet(d, &ran.lines)).is_ok(), "the quiet table's sheet fails", &inputs);
        }
        other
    }

    /// The check of link records. What both say: the number of ASes.
    pub fn check_links(&mut self, links: &[Link]) -> Result<usize, No> {
        let inputs = format!("check of {links:?}");
        let lent_links = links.to_vec();
        let library = bostuvrel::check_links(&lent_links).map_err(no);
        let other = Network::new(&as_second(links)).map(|net| net.ases.len());
        self.agree(&library, &other, &inputs);
        self.holds(lent_links == links, "lent memory is changed", &inputs);
        library
    }

    /// The stable table of link records into so many words. What both say: the number of words written.
    pub fn table(&mut self, links: &[Link], d: u32, words: usize) -> Result<usize, No> {
        let inputs = format!("table to {d} into {words} words of {links:?}");
        let (lent_links, before) = (links.to_vec(), pattern_words(words));
        let mut lent = before.clone();
        let library = bostuvrel::stable_table_into(&lent_links, d, &mut lent).map_err(no);
        let other = second::table(&as_second(links), d, words).map(|lines| table_words(&lines));
        self.agree(&library, &other.as_ref().map(Vec::len).map_err(|refused| *refused), &inputs);
        let due = other.unwrap_or_default();
        self.holds(lent[..due.len()] == due, "the tables differ", &inputs);
        self.holds(lent[due.len()..] == before[due.len()..] && lent_links == links, "lent memory is changed", &inputs);
        library
    }

    /// The package's own reading of a sheet, against the second program's; and its walks, which must end.
    pub fn decode(&mut self, bytes: &[u8]) {
        let inputs = format!("decode b\"{}\"", bytes.escape_ascii());
        let own = bostuvrel::Sheet::decode(bytes).map_err(no);
        let line = |l: bostuvrel::Line| (l.number, (u32::from(l.kind.to_type()), l.length, l.next_hop));
        let read = own.as_ref().map(|sheet| (sheet.destination(), sheet.lines().map(line).collect())).map_err(|refused| *refused);
        self.agree(&read, &second::read_sheet(bytes), &inputs);
        let Ok(sheet) = own else { return };
        self.holds(sheet.as_bytes() == bytes, "the bytes differ", &inputs);
        for line in sheet.lines() {
            let Some(walk) = sheet.walk(line.number) else { continue };
            let once = walk.iter().collect::<BTreeSet<_>>().len() == walk.len();
            let ends = walk[0] == line.number && walk[walk.len() - 1] == sheet.destination();
            self.holds(once && ends, &format!("the walk from {} goes wrong: {walk:?}", line.number), &inputs);
        }
    }
}
