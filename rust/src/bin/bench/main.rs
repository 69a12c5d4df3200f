//! How long the library's entries take beside plain Rust: `cargo run --release --offline --bin bench [-- FILE]`.
//!
//! Prints a table of medians and ratios. With a FILE, as `../docs/BENCHMARKS.md`, writes it there as a page, with the machine's description.
mod entries;
mod measure;
mod networks;
mod report;

#[path = "../../../inputs/mod.rs"]
mod inputs;
#[path = "../../../plain/mod.rs"]
mod plain;

use entries::{Bench, ENTRIES};
use report::Row;

fn main() {
    let networks = networks::all();
    let mut rows = Vec::new();
    for network in &networks {
        eprintln!("{} ..", network.name);
        let mut bench = Bench::new(network);
        bench.check();
        for entry in ENTRIES {
            rows.push(Row { network: network.name, entry, times: bench.time(entry) });
        }
    }
    let (list, table) = (report::list(&networks), report::table(&rows));
    println!("{list}\n{table}");
    if let Some(file) = std::env::args().nth(1) {
        let page = report::page(&list, &table);
        std::fs::write(&file, page).unwrap_or_else(|error| panic!("{file} cannot be written: {error}"));
    }
}
