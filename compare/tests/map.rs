//! docs/ARCHITECTURE.md, docs/DECISIONS.md and docs/WRONG-PROGRAMS.md name what is there: `crate::name` is declared in that crate, a path of a crate
//! exists, a name that stands right before a file stands in that file, and any other name stands somewhere in the library.

mod pages;

use pages::{has_word, in_name, page, ROOT};
use std::collections::HashSet;
use std::path::{Path, PathBuf};

/// All files below a folder, but not what a build leaves.
fn files_below(folder: &Path) -> Vec<PathBuf> {
    let entries = std::fs::read_dir(folder).into_iter().flatten().flatten().map(|entry| entry.path());
    let (folders, files): (Vec<PathBuf>, Vec<PathBuf>) = entries.partition(|path| path.is_dir());
    let below = folders.iter().filter(|path| !path.ends_with("target") && !path.ends_with("out"));
    files.into_iter().chain(below.flat_map(|path| files_below(path))).collect()
}

/// The words of everything that a page can name: the crates and their names, the header, the programs in Rust.
fn words() -> HashSet<String> {
    let folders = ["crates", "include", "rust", "reference", "compare"];
    let files: Vec<PathBuf> = folders.iter().flat_map(|folder| files_below(&Path::new(ROOT).join(folder))).collect();
    let texts = files.iter().filter_map(|path| std::fs::read_to_string(path).ok());
    let mut words: HashSet<String> =
        texts.flat_map(|text| text.split(|c| !in_name(c)).map(String::from).collect::<Vec<_>>()).collect();
    words.extend(crates());
    words
}

fn crates() -> Vec<String> {
    let entries = std::fs::read_dir(Path::new(ROOT).join("crates")).expect("the crates").flatten();
    entries.map(|entry| entry.file_name().into_string().expect("a name")).collect()
}

fn is_name(text: &str) -> bool {
    text.starts_with(char::is_alphabetic) && text.chars().all(in_name)
}

/// Whether a crate declares a function, a constant or a type of this name.
fn declares(package: &str, name: &str) -> bool {
    let source = files_below(&Path::new(ROOT).join("crates").join(package).join("src"));
    let text: String = source.iter().map(|path| std::fs::read_to_string(path).expect("a source")).collect();
    ["fn", "const", "struct", "enum"].iter().any(|kind| has_word(&text, &format!("{kind} {name}")))
}

/// What is wrong with a name in backticks, if anything.
fn fault_of(name: &str, crates: &[String], words: &HashSet<String>) -> Option<String> {
    let of_crate = |first: &str| crates.iter().any(|package| package == first);
    if let Some((package, rest)) = name.split_once("::").filter(|(package, _)| of_crate(package)) {
        let item = rest.split("::").next().expect("a name");
        return (!declares(package, item)).then(|| format!("{package} declares no {item}"));
    }
    if name.split_once('/').is_some_and(|(first, _)| of_crate(first)) {
        return (!Path::new(ROOT).join("crates").join(name).exists()).then(|| format!("no file {name}"));
    }
    let known = !is_name(name) || words.contains(name) || Path::new(ROOT).join(name).exists();
    (!known).then(|| format!("no {name} anywhere"))
}

/// What is wrong with a name that stands right before a file of a crate, if anything.
fn fault_before(name: &str, between: &str, file: &str) -> Option<String> {
    if !is_name(name) || ![", ", " in "].contains(&between) || !file.contains('/') {
        return None;
    }
    let body = std::fs::read_to_string(Path::new(ROOT).join("crates").join(file)).ok()?;
    (!has_word(&body, name)).then(|| format!("no {name} in {file}"))
}

#[test]
fn the_map_names_what_is_there() {
    let (crates, words) = (crates(), words());
    let mut wrong = Vec::new();
    let mut seen = 0;
    for path in ["docs/ARCHITECTURE.md", "docs/DECISIONS.md", "docs/WRONG-PROGRAMS.md"] {
        for line in page(path).lines() {
            let parts: Vec<&str> = line.split('`').collect();
            seen += parts.len() / 2;
            wrong.extend(parts.iter().skip(1).step_by(2).filter_map(|name| fault_of(name, &crates, &words)));
            let pairs = parts.windows(3).skip(1).step_by(2);
            wrong.extend(pairs.filter_map(|three| fault_before(three[0], three[1], three[2])));
        }
    }
    assert!(seen > 500, "the pages have {seen} names");
    assert!(wrong.is_empty(), "{}", wrong.join("\n"));
}
