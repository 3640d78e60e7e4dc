//! Sharing multiplies in one place, whose operands are proved to be at most 1,073,741,824 (document 02, request 3/14).

use std::path::{Path, PathBuf};

const SOURCES: &str = concat!(env!("CARGO_MANIFEST_DIR"), "/../crates/share/src");

/// What a product can be written with: the operator, a method of a number or of an iterator, a shift; and a call into another crate, where one could stand.
const PRODUCTS: [&str; 7] = ["*", "mul", "pow", "<<", "shl", ".product", "::"];

/// The source files of sharing, in any folder below its `src`.
fn sources(folder: &Path) -> Vec<PathBuf> {
    let entries = std::fs::read_dir(folder).expect("the folder of sources").flatten().map(|entry| entry.path());
    entries.flat_map(|path| if path.is_dir() { sources(&path) } else { vec![path] }).collect()
}

/// What of a line follows the clause that it stands in; nothing where the clause goes on. The depth is that of its brackets.
fn past_clause<'a>(line: &'a str, depth: &mut i32) -> &'a str {
    for (at, c) in line.char_indices() {
        *depth += i32::from(c == '{') - i32::from(c == '}');
        if c == '}' && *depth == 0 {
            return &line[at + 1..];
        }
    }
    ""
}

/// The lines of code, with the name of the function that each stands in; no comments, contracts and ghost imports.
fn code(source: &str) -> Vec<(&str, &str)> {
    let mut function = "";
    let mut depth = 0;
    let mut lines = Vec::new();
    for line in source.lines() {
        let line = line.split("//").next().unwrap_or("").trim();
        if let Some(rest) = line.trim_start_matches("pub ").strip_prefix("fn ") {
            function = rest.split('(').next().unwrap_or("");
        }
        if depth > 0 || ["requires", "ensures"].iter().any(|word| line.starts_with(word)) {
            lines.push((function, past_clause(line, &mut depth)));
        } else if !line.starts_with("ghost use") {
            lines.push((function, line));
        }
    }
    lines
}

#[test]
fn sharing_multiplies_once() {
    let mut products = Vec::new();
    for path in sources(Path::new(SOURCES)) {
        let source = std::fs::read_to_string(&path).expect("a source of share");
        let lines = code(&source).into_iter().filter(|(_, line)| PRODUCTS.iter().any(|word| line.contains(word)));
        products.extend(lines.map(|(function, line)| (function.to_string(), line.to_string())));
    }
    assert_eq!(products, [("product".to_string(), "(amount as u64) * (weight as u64)".to_string())]);
}
