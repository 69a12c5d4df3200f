//! Stable routes over transit and exchange links: the storefront's safe door to a proved library.
//!
//! A network is a text of links in CAIDA's as-rel form: `a|b|-1` where a is provider of b, `a|b|0` where a and b are peers. From it
//! and a destination AS the library works out how traffic runs: for each AS the kind of its route, its length and its next hop, as a
//! route sheet of bytes. The port crew patches from that sheet; [`judge`] says of any sheet whether it is the right one, by its own
//! lines. Exactly one sheet passes for a network and a destination. All of this is proved of the library behind these functions; this
//! crate only hands bytes over and takes numbers apart.
//!
//! | to | call | get |
//! |---|---|---|
//! | work out the routes to a destination | [`sheet`], [`sheet_into`] | a [`Sheet`], or its bytes in memory of yours |
//! | read a sheet from elsewhere | [`Sheet::decode`] | a [`Sheet`] with [`lines`](Sheet::lines) and [`walk`](Sheet::walk)s |
//! | know whether a sheet is right | [`judge`] | yes, or the first reason why not |
//! | know whether a network has a customer ring, and is joined | [`findings`] | [`Findings`] |
//! | watch the routes settle, message by message | [`run`], [`run_into`] | [`Counts`] and the lines of that moment |
//! | check links in memory | [`check_links`] | how many ASes they name |
//! | work out the routes over links in memory | [`stable_table`], [`stable_table_into`] | the lines, or their words in memory of yours |
//!
//! Texts and sheets are taken as anything that lends bytes: `&str`, `&[u8]`, `Vec<u8>`, `&Sheet`; links in memory as a slice of [`Link`].
//! Nothing has to be checked before a call: every input gets a result or a [`Refusal`] with a number, a place and plain words.
//!
//! ```
//! use bostuvrel::{Kind, Line};
//! let links = "10|20|-1\n20|30|-1\n30|40|-1\n10|40|0\n10|50|-1\n";
//! let sheet = bostuvrel::sheet(links, 40)?;
//! let lines: Vec<Line> = sheet.lines().collect();
//! assert_eq!(lines[0], Line { number: 10, kind: Kind::Customer, length: 3, next_hop: 20 });
//! assert_eq!(sheet.walk(50), Some(vec![50, 10, 20, 30, 40]));
//! bostuvrel::judge(links, &sheet)?;
//! # Ok::<(), bostuvrel::Refusal>(())
//! ```
#![deny(missing_docs)]

mod boundary;
mod line;
mod link;
mod refusal;
mod sheet;

pub use line::{Kind, Line};
pub use link::Link;
pub use refusal::Refusal;
pub use sheet::Sheet;

/// The most links that a network may have.
pub const MOST_LINKS: usize = 1_536;

/// The most bytes that a text or a sheet may have.
pub const MOST_BYTES: usize = 65_536;

/// The most choices, and the most further deliveries, that a run takes.
pub const MOST_DELIVERIES: u32 = 65_536;

/// The most bytes that the library writes for a sheet: 10, and 11 for each of 512 ASes.
pub const LONGEST_SHEET: usize = 10 + 11 * 512;

/// The most words that the library writes for a table: four for each of 512 ASes.
pub const LONGEST_TABLE: usize = 4 * 512;

/// The lines of a table's words.
fn lines_of(table: &[u32]) -> impl Iterator<Item = Line> + '_ {
    table.chunks_exact(4).map(|words| Line::from([words[0], words[1], words[2], words[3]]))
}

/// The route sheet of the stable routes to `destination` over the links of `text`.
///
/// ```
/// let sheet = bostuvrel::sheet("1|2|0\n2|3|0\n", 3)?;
/// assert_eq!(sheet.destination(), 3);
/// // 1 hears of 3 only from a peer's peer: it has no route
/// assert_eq!(sheet.line(1).unwrap().kind, bostuvrel::Kind::Unreachable);
///
/// let refused = bostuvrel::sheet("1|2|0\n1|2\n", 3).unwrap_err();
/// assert_eq!((refused.number(), refused.place()), (9, 2));
/// # Ok::<(), bostuvrel::Refusal>(())
/// ```
///
/// # Errors
/// A text that does not read, links that cannot be a network, or a destination that no link names.
pub fn sheet(text: impl AsRef<[u8]>, destination: u32) -> Result<Sheet, Refusal> {
    let mut bytes = vec![0; LONGEST_SHEET];
    let written = sheet_into(text, destination, &mut bytes)?;
    bytes.truncate(written);
    Ok(Sheet::written(bytes))
}

/// The same into memory of the caller's: how many bytes were written. Bytes beyond them stay as they were, and a refusal leaves all
/// of them as they were. [`LONGEST_SHEET`] bytes always suffice.
///
/// ```
/// let mut bytes = [0xee; 64];
/// assert_eq!(bostuvrel::sheet_into("1|2|-1\n", 2, &mut bytes)?, 32);
/// assert_eq!(bytes[32..], [0xee; 32]);
///
/// let refused = bostuvrel::sheet_into("1|2|-1\n", 2, &mut bytes[..31]).unwrap_err();
/// assert_eq!(refused.to_string(), "the output is too short (refusal 8, place 0)");
/// # Ok::<(), bostuvrel::Refusal>(())
/// ```
///
/// # Errors
/// As [`sheet`], and refusal 8 where the memory is too short.
pub fn sheet_into(text: impl AsRef<[u8]>, destination: u32, bytes: &mut [u8]) -> Result<usize, Refusal> {
    boundary::sheet(text.as_ref(), destination, bytes)
}

/// Whether a sheet is the one of its destination for the links of `text`: judged by its own lines.
///
/// ```
/// let links = "10|20|-1\n20|30|-1\n30|40|-1\n10|40|0\n10|50|-1\n";
/// let sheet = bostuvrel::sheet(links, 40)?;
/// assert!(bostuvrel::judge(links, &sheet).is_ok());
///
/// let mut bytes = sheet.into_bytes();
/// bytes[60] = 2; // the length of 50's line
/// let refused = bostuvrel::judge(links, &bytes).unwrap_err();
/// assert_eq!((refused.number(), refused.place()), (12, 4));
/// # Ok::<(), bostuvrel::Refusal>(())
/// ```
///
/// # Errors
/// The first reason why it is not.
pub fn judge(text: impl AsRef<[u8]>, sheet: impl AsRef<[u8]>) -> Result<(), Refusal> {
    boundary::judge(text.as_ref(), sheet.as_ref())
}

/// What [`findings`] says of a network.
#[derive(Clone, Copy, Debug, PartialEq, Eq, Hash)]
pub struct Findings {
    /// Some AS reaches itself by one or more provider-to-customer links.
    pub customer_ring: bool,
    /// Every two different ASes without a provider are peers.
    pub joined: bool,
}

/// The two findings on a network.
///
/// ```
/// let found = bostuvrel::findings("1|2|-1\n2|3|-1\n3|1|-1\n")?;
/// assert!(found.customer_ring);
/// # Ok::<(), bostuvrel::Refusal>(())
/// ```
///
/// # Errors
/// A text that does not read, or links that cannot be a network.
pub fn findings(text: impl AsRef<[u8]>) -> Result<Findings, Refusal> {
    boundary::findings(text.as_ref())
}

/// What a run of the message machine counts.
#[derive(Clone, Copy, Debug, PartialEq, Eq, Hash)]
pub struct Counts {
    /// Deliveries made, by choice and after.
    pub deliveries: u32,
    /// Choices of a direction on which nothing waited.
    pub idle: u32,
    /// Whether nothing waits any more. If so the lines are the stable ones.
    pub quiet: bool,
}

/// What a run of the message machine comes to.
#[derive(Clone, Debug, PartialEq, Eq, Hash)]
pub struct Run {
    /// Deliveries, idle choices, quiet or not.
    pub counts: Counts,
    /// The lines of that moment, ASes ascending.
    pub lines: Vec<Line>,
}

/// Runs the message machine: the deliveries of `choices` (link i of the text has direction 2i from its first AS to its second, and
/// 2i + 1 back), then at most `further` more, the lowest waiting direction first.
///
/// ```
/// use bostuvrel::MOST_DELIVERIES;
/// let links = "10|20|-1\n20|30|-1\n30|40|-1\n10|40|0\n10|50|-1\n";
/// let run = bostuvrel::run(links, 40, &[7, 8], MOST_DELIVERIES)?;
/// assert_eq!((run.counts.deliveries, run.counts.idle, run.counts.quiet), (16, 0, true));
/// // Quiet: the lines are those of the sheet
/// assert!(bostuvrel::sheet(links, 40)?.lines().eq(run.lines));
/// # Ok::<(), bostuvrel::Refusal>(())
/// ```
///
/// # Errors
/// As [`sheet`], refusal 1 for more than [`MOST_DELIVERIES`] choices or further deliveries, and refusal 13 for a choice that is no
/// direction.
pub fn run(text: impl AsRef<[u8]>, destination: u32, choices: &[u32], further: u32) -> Result<Run, Refusal> {
    let mut table = vec![0; LONGEST_TABLE];
    let counts = run_into(text, destination, choices, further, &mut table)?;
    // No AS has number 0, so the entries end where one would
    let lines = lines_of(&table).take_while(|line| line.number != 0).collect();
    Ok(Run { counts, lines })
}

/// The same into a table of the caller's, four words for each AS: number, type, length, next hop. Words beyond the last entry stay as
/// they were, and a refusal leaves all of them as they were. [`LONGEST_TABLE`] words always suffice.
///
/// ```
/// let mut table = [77; 12];
/// let counts = bostuvrel::run_into("1|2|-1\n", 2, &[], 100, &mut table)?;
/// assert_eq!((counts.deliveries, counts.quiet), (2, true));
/// assert_eq!(table, [1, 1, 1, 2, 2, 1, 0, 2, 77, 77, 77, 77]);
/// # Ok::<(), bostuvrel::Refusal>(())
/// ```
///
/// # Errors
/// As [`run`], and refusal 8 where the table is too short.
pub fn run_into(
    text: impl AsRef<[u8]>,
    destination: u32,
    choices: &[u32],
    further: u32,
    table: &mut [u32],
) -> Result<Counts, Refusal> {
    boundary::run(text.as_ref(), destination, choices, further, table)
}

/// How many ASes the links name, if they can be a network.
///
/// ```
/// use bostuvrel::Link;
/// let mut links = [Link::provides(10, 20), Link::peers(20, 30)];
/// assert_eq!(bostuvrel::check_links(&links)?, 3);
///
/// links[1].relation = 2;
/// let refused = bostuvrel::check_links(&links).unwrap_err();
/// assert_eq!((refused.number(), refused.place()), (3, 1));
/// # Ok::<(), bostuvrel::Refusal>(())
/// ```
///
/// # Errors
/// Refusal 1 for more than [`MOST_LINKS`]; else the first link that cannot be in a network, with its index.
pub fn check_links(links: &[Link]) -> Result<usize, Refusal> {
    boundary::check(links)
}

/// The lines of the stable routes to `destination` over links in memory, ASes ascending.
///
/// ```
/// use bostuvrel::Link;
/// let links = [Link::provides(10, 20), Link::provides(20, 30), Link::provides(30, 40), Link::peers(10, 40), Link::provides(10, 50)];
/// let lines = bostuvrel::stable_table(&links, 40)?;
/// assert_eq!(lines[4].to_string(), "50 provider 4 by 10");
/// // The lines are those of the sheet
/// assert!(bostuvrel::sheet("10|20|-1\n20|30|-1\n30|40|-1\n10|40|0\n10|50|-1\n", 40)?.lines().eq(lines));
/// # Ok::<(), bostuvrel::Refusal>(())
/// ```
///
/// # Errors
/// As [`check_links`], and refusal 7 for a destination that no link names.
pub fn stable_table(links: &[Link], destination: u32) -> Result<Vec<Line>, Refusal> {
    let mut table = vec![0; LONGEST_TABLE];
    let written = stable_table_into(links, destination, &mut table)?;
    Ok(lines_of(&table[..written]).collect())
}

/// The same into a table of the caller's, four words for each AS: number, type, length, next hop. How many words were written. Words
/// beyond them stay as they were, and a refusal leaves all of them as they were. [`LONGEST_TABLE`] words always suffice.
///
/// ```
/// use bostuvrel::Link;
/// let mut table = [77; 12];
/// assert_eq!(bostuvrel::stable_table_into(&[Link::provides(1, 2)], 2, &mut table)?, 8);
/// assert_eq!(table, [1, 1, 1, 2, 2, 1, 0, 2, 77, 77, 77, 77]);
///
/// let refused = bostuvrel::stable_table_into(&[Link::provides(1, 2)], 2, &mut table[..7]).unwrap_err();
/// assert_eq!((refused.number(), refused.place()), (8, 0));
/// # Ok::<(), bostuvrel::Refusal>(())
/// ```
///
/// # Errors
/// As [`stable_table`], and refusal 8 where the table is too short.
pub fn stable_table_into(links: &[Link], destination: u32, table: &mut [u32]) -> Result<usize, Refusal> {
    boundary::table(links, destination, table)
}
