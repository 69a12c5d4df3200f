//! Makes the proved library's archive with `rt lib` in crates/storefront_c where it is missing or older than its sources, and links it.
use std::path::{Path, PathBuf};
use std::process::Command;
use std::time::SystemTime;
use std::{env, fs};

/// The newest change of a source below a folder of crates; what `rt` keeps in `out/` is no source.
fn newest(path: &Path) -> SystemTime {
    if path.is_dir() {
        let inside = fs::read_dir(path).into_iter().flatten().flatten().filter(|entry| entry.file_name() != "out");
        return inside.map(|entry| newest(&entry.path())).max().unwrap_or(SystemTime::UNIX_EPOCH);
    }
    fs::metadata(path).and_then(|meta| meta.modified()).unwrap_or(SystemTime::UNIX_EPOCH)
}

/// Whether the archive is there and no source is newer.
fn is_fresh(archive: &Path, sources: &[PathBuf]) -> bool {
    let made = fs::metadata(archive).and_then(|meta| meta.modified());
    made.is_ok_and(|made| sources.iter().all(|source| newest(source) <= made))
}

/// The folders of each crate that hold what is proved and built.
fn sources_of(root: &Path) -> Vec<PathBuf> {
    let crates = fs::read_dir(root.join("crates")).into_iter().flatten().flatten();
    let folders = crates.flat_map(|entry| ["src", "specs", "proofs"].map(|name| entry.path().join(name)));
    folders.filter(|folder| folder.is_dir()).chain([root.join("crates.txt")]).collect()
}

fn main() {
    let package = PathBuf::from(env::var_os("CARGO_MANIFEST_DIR").expect("cargo says where the package lies"));
    let root = package.parent().expect("the package lies in the repository");
    let sources = sources_of(root);
    let folder = root.join("target/staticlib");
    let archive = folder.join("libstorefront.a");
    // cargo runs this again where one of these is newer than the last run, or gone
    for path in sources.iter().chain([&archive]) {
        println!("cargo:rerun-if-changed={}", path.display());
    }
    if !is_fresh(&archive, &sources) {
        // (`rt lib` works on the crate of the folder that it is run in; it proves what is not proved yet. The archive that it makes has the
        // crate's name and goes at the next `rt ci`: callers link a copy under the library's own name.)
        let exports = root.join("crates/storefront_c");
        let done = Command::new("rt").arg("lib").current_dir(&exports).status();
        assert!(done.is_ok_and(|status| status.success()), "`rt lib` in crates/storefront_c failed: is the Rattle toolchain on the PATH?");
        fs::create_dir_all(&folder).expect("target/staticlib can be made");
        fs::copy(exports.join("out/libstorefront_c.a"), &archive).expect("the archive can be copied");
    }
    println!("cargo:rustc-link-search=native={}", folder.display());
    println!("cargo:rustc-link-lib=static=storefront");
}
