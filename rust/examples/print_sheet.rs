//! Prints a route sheet for people: `cargo run --release --offline --example print_sheet -- DESTINATION < links.txt`.
//!
//! Above, the destination and the two findings on the network. Below, for each AS, the kind of its route, its length, its next hop, and
//! the walk that its traffic takes. A refusal goes to standard error in plain words, with the line of the text that it speaks of.
use bostuvrel::{Findings, Kind, Line, Refusal, Sheet, MOST_BYTES};
use std::io::{self, Read, Write};
use std::process::ExitCode;

const USAGE: &str = "\
Prints the route sheet of a network for people.

  print_sheet DESTINATION < links.txt

DESTINATION is the AS that traffic goes to. The links come from standard input, one to a line:
  10|20|-1   10 is provider of 20
  10|40|0    10 and 40 are peers
  # ..       a comment
";

/// How many columns a printed line takes at most, unless a single step of a walk needs more.
const COLUMNS: usize = 100;

/// How many bytes of a refused line are shown.
const LONGEST_SHOWN: usize = 80;

const FOOT: &str = "Kind: what the next hop is to the AS. Length: how many links the walk takes.";

fn main() -> ExitCode {
    let arguments: Vec<String> = std::env::args().skip(1).collect();
    let [destination] = arguments.as_slice() else {
        eprint!("{USAGE}");
        return ExitCode::from(2);
    };
    let Some(destination) = destination.parse::<u32>().ok().filter(|number| number.to_string() == *destination) else {
        eprintln!("'{destination}' is no AS number: 1 to 4294967295 is.\n\n{USAGE}");
        return ExitCode::from(2);
    };
    let mut text = Vec::new();
    // One byte over the limit is enough to be refused for it
    if let Err(error) = io::stdin().take(MOST_BYTES as u64 + 1).read_to_end(&mut text) {
        eprintln!("the links cannot be read: {error}");
        return ExitCode::from(2);
    }
    match print(&text, destination) {
        // Who reads may have had enough: that is no fault
        Ok(page) => io::stdout().write_all(page.as_bytes()).map_or(ExitCode::FAILURE, |()| ExitCode::SUCCESS),
        Err(refused) => {
            eprint!("{}", complaint(&text, destination, refused));
            ExitCode::FAILURE
        }
    }
}

/// The whole page.
fn print(text: &[u8], destination: u32) -> Result<String, Refusal> {
    let found = bostuvrel::findings(text)?;
    let sheet = bostuvrel::sheet(text, destination)?;
    Ok(format!("{}\n{}\n{FOOT}\n", head(&sheet, found), table(&sheet)))
}

/// Destination, findings, and how many ASes have a route.
fn head(sheet: &Sheet, found: Findings) -> String {
    let yes = |b| if b { "yes" } else { "no" };
    let without = sheet.lines().filter(|line| line.kind == Kind::Unreachable).count();
    let routes = match without {
        0 => "all have a route".to_string(),
        1 => "1 has no route".to_string(),
        many => format!("{many} have no route"),
    };
    format!(
        "Routes to AS {}\n\nCustomer ring  {}\nJoined         {}\nASes           {}, {routes}\n",
        sheet.destination(),
        yes(found.customer_ring),
        yes(found.joined),
        sheet.lines().len(),
    )
}

/// The cells of a line ahead of its walk: AS, kind, length, next hop.
fn cells(line: &Line) -> [String; 4] {
    let number = line.number.to_string();
    if line.is_origin() {
        return [number, "origin".into(), "0".into(), "-".into()];
    }
    if line.kind == Kind::Unreachable {
        return [number, line.kind.to_string(), "-".into(), "-".into()];
    }
    [number, line.kind.to_string(), line.length.to_string(), line.next_hop.to_string()]
}

/// A row for each line under the titles, columns aligned.
fn table(sheet: &Sheet) -> String {
    let titles = ["AS", "kind", "length", "next hop"].map(String::from);
    let rows: Vec<[String; 4]> = sheet.lines().map(|line| cells(&line)).collect();
    let width = |column: usize| rows.iter().chain([&titles]).map(|row| row[column].len()).max().unwrap_or(0);
    let widths = [width(0), width(1), width(2), width(3)];
    let aligned = |[number, kind, length, next]: &[String; 4]| {
        let [a, k, l, h] = widths;
        format!("{number:>a$}  {kind:<k$}  {length:>l$}  {next:>h$}  ")
    };
    let indent = aligned(&titles).len();
    let mut out = aligned(&titles) + "walk\n";
    for (row, line) in rows.iter().zip(sheet.lines()) {
        let walk = sheet.walk(line.number).map_or("no route".to_string(), |walk| folded(&walk, indent));
        out += &format!("{}{walk}\n", aligned(row));
    }
    out
}

/// A walk as `10 > 20 > 30`, broken where the columns end; what follows a break begins under the walk's first AS.
fn folded(walk: &[u32], indent: usize) -> String {
    let mut out = String::new();
    let mut column = indent;
    for (i, number) in walk.iter().enumerate() {
        let step = number.to_string();
        if i > 0 {
            out += " >";
            column += 2;
            // A space, the AS, and the sign behind it
            if column + 1 + step.len() + 2 > COLUMNS {
                out += &format!("\n{:indent$}", "");
                column = indent;
            } else {
                out += " ";
                column += 1;
            }
        }
        out += &step;
        column += step.len();
    }
    out
}

/// The refusal in plain words, and the line of the text that it speaks of, cut where it is long.
fn complaint(text: &[u8], destination: u32, refused: Refusal) -> String {
    let said = format!("refused: {refused}\n");
    if refused.number() == 7 {
        return said + &format!("  destination: {destination}\n");
    }
    match spoken_of(text, refused) {
        Some((number, line)) => said + &format!("  line {number}: {}\n", line[..line.len().min(LONGEST_SHOWN)].escape_ascii()),
        None => said,
    }
}

/// The line that a refusal speaks of, counted from 1: the line itself, or that of the link at its place.
fn spoken_of(text: &[u8], refused: Refusal) -> Option<(usize, &[u8])> {
    let mut lines = (1..).zip(text.split(|byte| *byte == b'\n'));
    let place = refused.place() as usize;
    match refused.number() {
        2..=6 => lines.filter(|(_, line)| !line.starts_with(b"#")).nth(place),
        9 => lines.nth(place - 1),
        _ => None,
    }
}

#[cfg(test)]
mod tests {
    use super::*;

    const A: &str = "10|20|-1\n20|30|-1\n30|40|-1\n10|40|0\n10|50|-1\n";

    #[test]
    fn prints_the_example() {
        let due = "\
Routes to AS 40

Customer ring  no
Joined         yes
ASes           5, all have a route

AS  kind      length  next hop  walk
10  customer       3        20  10 > 20 > 30 > 40
20  customer       2        30  20 > 30 > 40
30  customer       1        40  30 > 40
40  origin         0         -  40
50  provider       4        10  50 > 10 > 20 > 30 > 40

Kind: what the next hop is to the AS. Length: how many links the walk takes.
";
        assert_eq!(print(A.as_bytes(), 40).unwrap(), due);
    }

    #[test]
    fn prints_who_has_no_route() {
        let page = print(b"1|2|0\n2|3|0\n", 3).unwrap();
        assert!(page.contains("ASes           3, 1 has no route\n"), "{page}");
        assert!(page.contains("\n 1  unreachable       -         -  no route\n"), "{page}");
    }

    #[test]
    fn folds_long_walks() {
        let chain: String = (1..512).map(|i| format!("{i}|{}|-1\n", i + 1)).collect();
        let page = print(chain.as_bytes(), 512).unwrap();
        assert!(page.lines().all(|line| line.len() <= COLUMNS), "{page}");
        let numbers = |s: &str| s.split([' ', '>', '\n']).filter_map(|word| word.parse().ok()).collect::<Vec<u32>>();
        let first = &page[page.find("1 > 2").unwrap()..page.find("\n  2  ").unwrap()];
        assert_eq!(numbers(first), (1..=512).collect::<Vec<u32>>());
    }

    #[test]
    fn complains_in_plain_words() {
        let said = |text: &str, destination| {
            let refused = print(text.as_bytes(), destination).unwrap_err();
            complaint(text.as_bytes(), destination, refused)
        };
        assert_eq!(
            said("# map\n1|2|0\n7|7|0\n", 1),
            "refused: link 1 joins an AS to itself (refusal 4, place 1)\n  line 3: 7|7|0\n"
        );
        assert_eq!(
            said("1|2|0\n1|3|0\r\n", 1),
            "refused: line 2 of the text does not read as a link (refusal 9, place 2)\n  line 2: 1|3|0\\r\n"
        );
        assert_eq!(said(A, 60), "refused: no link names the destination (refusal 7, place 0)\n  destination: 60\n");
    }
}
