//! Links the static library that `tools/archive` writes at the repository's root, and takes the words of the refusals
//! from README.md's table, where they stand once.

use std::path::{Path, PathBuf};

fn main() {
    let root = Path::new(env!("CARGO_MANIFEST_DIR")).join("../..");
    link(&root.join("target/staticlib"));
    words(&root.join("README.md"));
}

fn link(folder: &Path) {
    let archive = folder.join("libexports.a");
    println!("cargo::rerun-if-changed={}", archive.display());
    if !archive.exists() {
        println!("cargo::error=target/staticlib/libexports.a is missing: run `tools/archive` first");
        return;
    }
    println!("cargo::rustc-link-search=native={}", folder.display());
    println!("cargo::rustc-link-lib=static=exports");
}

/// Writes `words.rs`: number, what is wrong, what the index names, what to do, for each row of the table that starts with a
/// number and has four columns.
fn words(readme: &Path) {
    println!("cargo::rerun-if-changed={}", readme.display());
    let text = std::fs::read_to_string(readme).expect("README.md has the words of the refusals");
    let rows: Vec<String> = text.lines().filter_map(row).collect();
    let out = PathBuf::from(std::env::var_os("OUT_DIR").expect("cargo sets OUT_DIR")).join("words.rs");
    std::fs::write(out, format!("[{}]", rows.join(", "))).expect("OUT_DIR can be written");
}

fn row(line: &str) -> Option<String> {
    let cells: Vec<&str> = line.strip_prefix('|')?.strip_suffix('|')?.split('|').map(str::trim).collect();
    match cells[..] {
        [number, wrong, index, advice] => {
            let number: u8 = number.parse().ok()?;
            Some(format!("Words {{ number: {number}, wrong: {wrong:?}, index: {index:?}, advice: {advice:?} }}"))
        }
        _ => None,
    }
}
