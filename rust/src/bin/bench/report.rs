//! The printed table, and the page with the machine's description.
use crate::entries::{Entry, ENTRIES};
use crate::measure::Times;
use crate::networks::Network;
use std::fs;
use std::process::Command;
use std::time::Duration;

pub struct Row {
    pub network: &'static str,
    pub entry: Entry,
    pub times: Times,
}

fn micros(time: Duration) -> String {
    format!("{:.1}", time.as_secs_f64() * 1e6)
}

/// Cells in aligned columns, the first two to the left, in the manner of Markdown.
fn aligned(rows: &[[String; 5]]) -> String {
    let width = |column: usize| rows.iter().map(|row| row[column].len()).max().unwrap_or(0);
    let [a, b, c, d, e] = [0, 1, 2, 3, 4].map(width);
    let line = |[p, q, r, s, t]: &[String; 5]| format!("| {p:<a$} | {q:<b$} | {r:>c$} | {s:>d$} | {t:>e$} |\n");
    let [a2, b2, c2, d2, e2] = [a, b, c, d, e].map(|width| "-".repeat(width));
    let rule = format!("|-{a2}-|-{b2}-|-{c2}:|-{d2}:|-{e2}:|\n");
    line(&rows[0]) + &rule + &rows[1..].iter().map(line).collect::<String>()
}

/// Medians and ratios by entry and network, and below them the largest ratio of each entry beside its target.
pub fn table(rows: &[Row]) -> String {
    let mut cells = vec![["entry", "network", "library us", "plain us", "ratio"].map(String::from)];
    let mut worst = vec![["entry", "network", "ratio", "target", "kept"].map(String::from)];
    for entry in ENTRIES {
        let mine: Vec<&Row> = rows.iter().filter(|row| row.entry == entry).collect();
        for row in &mine {
            let times = &row.times;
            let ratio = format!("{:.2}", times.ratio());
            cells.push([entry.name().into(), row.network.into(), micros(times.library), micros(times.plain), ratio]);
        }
        let Some(most) = mine.iter().max_by(|x, y| x.times.ratio().total_cmp(&y.times.ratio())) else { continue };
        let ratio = most.times.ratio();
        let target = entry.target().map_or("-".into(), |target| format!("{target}"));
        let kept = entry.target().map_or("-", |target| if ratio <= target { "yes" } else { "no" });
        worst.push([entry.name().into(), most.network.into(), format!("{ratio:.2}"), target, kept.into()]);
    }
    format!("{}\nThe largest ratio of each entry:\n\n{}", aligned(&cells), aligned(&worst))
}

/// What follows a name and a colon in one of the system's files.
fn told(file: &str, name: &str) -> String {
    let text = fs::read_to_string(file).unwrap_or_default();
    let line = text.lines().find(|line| line.starts_with(name)).and_then(|line| line.split_once(':'));
    line.map_or("unknown".into(), |(_, value)| value.trim().to_string())
}

fn compiler() -> String {
    let said = Command::new("rustc").arg("--version").output();
    said.map_or("unknown".into(), |said| String::from_utf8_lossy(&said.stdout).trim().to_string())
}

/// The machine in a few lines.
fn machine() -> String {
    let cores = std::thread::available_parallelism().map_or(0, usize::from);
    let kernel = fs::read_to_string("/proc/sys/kernel/osrelease").unwrap_or("unknown".into());
    format!(
        "- processor: {}, {cores} cores to this program\n- memory: {}\n- Linux {}\n- {}\n",
        told("/proc/cpuinfo", "model name"),
        told("/proc/meminfo", "MemTotal"),
        kernel.trim(),
        compiler(),
    )
}

const HOW: &str = "\
# Benchmarks

The library's entries beside the same entries in plain, fast Rust (`rust/plain/`): hash maps for ASes and pairs, arrays of neighbours,
breadth-first queues, buckets by length, an ordered set of waiting directions. Written by `cargo run --release --offline --bin bench --
../docs/BENCHMARKS.md` in `rust/`.

Both are release builds, called in turn on the same inputs in one run, 9 to 301 times each; the medians are in microseconds, and a ratio is
library / plain. Before a network is measured both must give the same results and refusals on it. What they write into is lent to both
alike, made once and not cleared between calls. Inside a call the library clears its own words and room, and plain Rust allocates its maps
and arrays. 'Text to sheet', 'judge' and 'findings' begin with the text; 'table alone' begins with links in memory and checks them;
'machine' begins with the text, takes no choices and makes at most 65,536 deliveries.
";

/// What the networks are.
pub fn list(networks: &[Network]) -> String {
    let line = |n: &Network| format!("- {}: {} ASes, {} links; {}. Machine: {}.\n", n.name, n.ases, n.links, n.what, n.end);
    networks.iter().map(line).collect()
}

/// The whole page.
pub fn page(list: &str, table: &str) -> String {
    let machine = machine();
    format!("{HOW}\n## The machine\n\n{machine}\n## The networks\n\nAS numbers are spread over 32 bits.\n\n{list}\n## Medians\n\n{table}")
}
