//! docs/READING.md lists every file of definitions that people have to believe: the contracts of the exports and the
//! headline theorems cite no other, and no listed file rests on one that is not listed.

use std::collections::BTreeSet;
use std::fs;
use std::path::{Path, PathBuf};

fn root() -> PathBuf {
    Path::new(env!("CARGO_MANIFEST_DIR")).join("../..")
}

fn read(file: &Path) -> String {
    fs::read_to_string(file).unwrap_or_else(|error| panic!("{}: {error}", file.display()))
}

/// The files that the page's table names, below `crates/`. A name without a folder stands in the folder named before it.
fn listed() -> BTreeSet<String> {
    let page = read(&root().join("docs/READING.md"));
    let mut files = BTreeSet::new();
    for row in page.lines().filter(|line| line.starts_with("| `")) {
        let cell = row.split('|').nth(1).expect("a row has cells");
        let mut folder = String::new();
        for name in cell.split('`').skip(1).step_by(2) {
            if let Some((before, _)) = name.rsplit_once('/') {
                folder = match name.starts_with("proofs/") {
                    true => folder.replace("specs", "proofs"),
                    false => before.to_owned(),
                };
            }
            let last = name.rsplit('/').next().expect("a name");
            files.insert(format!("{folder}/{last}"));
        }
    }
    files
}

/// The files of definitions that a file's `use` lines name.
fn used(file: &str) -> Vec<String> {
    let text = read(&root().join("crates").join(file));
    let lines = text.lines().filter_map(|line| line.trim_start_matches("ghost ").strip_prefix("use Rattle."));
    lines
        .filter_map(|name| {
            let (library, rest) = name.split_once(".specs.")?;
            let module = rest.split(['.', ' ', ';']).next().expect("a module");
            (module != "declared" && library != "std").then(|| format!("{library}/specs/{module}.antt"))
        })
        .collect()
}

#[test]
fn the_page_lists_what_the_promises_rest_on() {
    let listed = listed();
    assert!(listed.len() > 40, "the table of docs/READING.md was not read: {listed:?}");
    for file in &listed {
        for other in used(file) {
            assert!(listed.contains(&other), "{file} rests on {other}, which docs/READING.md does not list");
        }
    }
    for other in used("fernpocket/src/lib.rt") {
        assert!(listed.contains(&other), "an export's contract cites {other}, which docs/READING.md does not list");
    }
}

#[test]
fn every_listed_file_is_there() {
    for file in listed() {
        assert!(root().join("crates").join(&file).is_file(), "docs/READING.md lists {file}");
    }
}
