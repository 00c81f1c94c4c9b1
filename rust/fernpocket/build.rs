//! Finds libfernpocket.a and links it. An archive that is missing, older than the Rattle sources, or without one of
//! the exports that src/raw.rs declares is an error here.

use std::path::{Path, PathBuf};
use std::time::SystemTime;
use std::{env, fs, process};

fn main() {
    let manifest = PathBuf::from(env::var_os("CARGO_MANIFEST_DIR").expect("cargo sets CARGO_MANIFEST_DIR"));
    let root = manifest.join("../..");
    let root = root.canonicalize().unwrap_or(root);
    let other = env::var_os("FERNPOCKET_LIB");
    let folder = match &other {
        Some(folder) => manifest.join(folder),
        None => root.join("crates/fernpocket/out"),
    };
    let archive = folder.join("libfernpocket.a");
    println!("cargo::rerun-if-env-changed=FERNPOCKET_LIB");
    rerun_if_changed(&archive);
    rerun_if_changed(&manifest.join("src/raw.rs"));

    let bytes = fs::read(&archive).unwrap_or_else(|error| {
        fail(&format!(
            "there is no archive to link ({}: {error}). Run `rt lib` in crates/fernpocket, or set \
             FERNPOCKET_LIB to the folder that holds libfernpocket.a.",
            archive.display()
        ))
    });
    // An archive that FERNPOCKET_LIB names need not come from the sources beside this crate.
    if other.is_none() {
        if let Some(source) = newer_source(&root, changed(&archive)) {
            fail(&format!(
                "{} is older than {}. Run `rt lib` in crates/fernpocket.",
                archive.display(),
                source.display()
            ));
        }
    }
    let missing: Vec<String> =
        declared(&manifest.join("src/raw.rs")).into_iter().filter(|name| !has_symbol(&bytes, name)).collect();
    if !missing.is_empty() {
        fail(&format!("{} has no {}: it was made from other sources.", archive.display(), missing.join(", ")));
    }
    println!("cargo::rustc-link-search=native={}", folder.display());
    println!("cargo::rustc-link-lib=static=fernpocket");
}

fn fail(sentence: &str) -> ! {
    println!("cargo::error={sentence}");
    process::exit(1)
}

fn rerun_if_changed(file: &Path) {
    println!("cargo::rerun-if-changed={}", file.display());
}

fn changed(file: &Path) -> SystemTime {
    let time = fs::metadata(file).and_then(|data| data.modified());
    time.unwrap_or_else(|error| fail(&format!("{}: {error}", file.display())))
}

/// A Rattle source that was changed after the archive was written, among the crates that `fernpocket` stands on.
fn newer_source(root: &Path, archive: SystemTime) -> Option<PathBuf> {
    let list = root.join("crates.txt");
    rerun_if_changed(&list);
    let text = fs::read_to_string(&list).unwrap_or_else(|error| fail(&format!("{}: {error}", list.display())));
    let crates = text.lines().find_map(|line| line.strip_prefix("fernpocket staticlib:"));
    let crates = crates.unwrap_or_else(|| fail(&format!("{} has no line for fernpocket", list.display())));
    let mut newer = None;
    for name in ["fernpocket"].into_iter().chain(crates.split_whitespace()) {
        let folder = root.join("crates").join(name).join("src");
        rerun_if_changed(&folder);
        for file in files(&folder) {
            if changed(&file) > archive {
                newer = Some(file);
            }
        }
    }
    newer
}

/// The files of a folder and of those in it.
fn files(folder: &Path) -> Vec<PathBuf> {
    let entries = fs::read_dir(folder).unwrap_or_else(|error| fail(&format!("{}: {error}", folder.display())));
    let paths =
        entries.map(|entry| entry.unwrap_or_else(|error| fail(&format!("{}: {error}", folder.display()))).path());
    paths.flat_map(|path| if path.is_dir() { files(&path) } else { vec![path] }).collect()
}

/// The exports that the crate declares.
fn declared(source: &Path) -> Vec<String> {
    let text = fs::read_to_string(source).unwrap_or_else(|error| fail(&format!("{}: {error}", source.display())));
    let after = text.split("pub fn fernpocket_").skip(1);
    after.filter_map(|rest| rest.split_once('(')).map(|(name, _)| format!("fernpocket_{name}")).collect()
}

/// Is the name in the archive's table of symbols, where names end with a zero byte?
fn has_symbol(archive: &[u8], name: &str) -> bool {
    let symbol = format!("{name}\0");
    archive.windows(symbol.len() + 1).any(|part| {
        let (before, rest) = part.split_at(1);
        rest == symbol.as_bytes() && !before[0].is_ascii_alphanumeric() && before[0] != b'_'
    })
}
