//! docs/STATEMENTS.md and docs/WRONG-PROGRAMS.md name files and what stands in them: each file exists, and each name that
//! stands before "in FILE" stands in that file. Every must-fail edit is named on the second page, as one of code or, with
//! the mark (d), of a definition; the first page has the number of each.

mod pages;

use pages::{has_word, page, ROOT};
use std::path::Path;

/// The path that begins at the start of the text: up to the first character that no path has.
fn path_at(text: &str) -> &str {
    let end = text.find(|c: char| !(c.is_alphanumeric() || "/._-".contains(c))).unwrap_or(text.len());
    text[..end].trim_end_matches('.')
}

/// The names in backticks of a stretch of text.
fn names(text: &str) -> Vec<&str> {
    text.split('`').skip(1).step_by(2).collect()
}

/// The must-fail edits of all crates, as paths from the top.
fn edits() -> Vec<String> {
    let names = |folder: &str| {
        let entries = std::fs::read_dir(Path::new(ROOT).join(folder)).into_iter().flatten().flatten();
        entries.map(|entry| entry.file_name().into_string().expect("a name")).collect::<Vec<_>>()
    };
    let folders = names("crates").into_iter().map(|name| format!("crates/{name}/must-fail"));
    folders.flat_map(|folder| names(&folder).into_iter().map(move |edit| format!("{folder}/{edit}"))).collect()
}

#[test]
fn every_edit_is_named() {
    let page = page("docs/STATEMENTS.md") + &page("docs/WRONG-PROGRAMS.md");
    let edits = edits();
    assert!(edits.len() > 50, "there are {} edits", edits.len());
    let missing: Vec<&String> = edits.iter().filter(|edit| !page.contains(*edit)).collect();
    assert!(missing.is_empty(), "{missing:?}");
}

/// Whether an edit changes a definition, and not code.
fn is_of_definition(edit: &str) -> bool {
    page(edit).lines().any(|line| line.starts_with("file: specs/"))
}

#[test]
fn edits_are_called_what_they_are() {
    let (listed, counts) = (page("docs/WRONG-PROGRAMS.md"), page("docs/STATEMENTS.md"));
    let (of_definitions, of_code): (Vec<String>, Vec<String>) =
        edits().into_iter().partition(|edit| is_of_definition(edit));
    let unmarked = of_definitions.iter().filter(|edit| !listed.contains(&format!("{edit} (d)")));
    let marked = of_code.iter().filter(|edit| listed.contains(&format!("{edit} (d)")));
    let wrong: Vec<&String> = unmarked.chain(marked).collect();
    assert!(wrong.is_empty(), "{wrong:?}");
    let sentence = format!("{} edits are of code, {} of a definition", of_code.len(), of_definitions.len());
    assert!(counts.contains(&sentence), "docs/STATEMENTS.md does not say: {sentence}");
}

#[test]
fn files_and_names_are_there() {
    let page = page("docs/STATEMENTS.md") + &page("docs/WRONG-PROGRAMS.md");
    let mut wrong = Vec::new();
    let mut seen = 0;
    for cell in page.lines().flat_map(|line| line.split(['|', ';'])) {
        let mut rest = cell;
        while let Some(at) = rest.find("crates/") {
            let path = path_at(&rest[at..]);
            let before = &rest[..at];
            rest = &rest[at + path.len()..];
            let Ok(body) = std::fs::read_to_string(Path::new(ROOT).join(path)) else {
                wrong.push(format!("{path}: no such file"));
                continue;
            };
            seen += 1;
            if before.trim_end().ends_with("in") {
                let missing = names(before).into_iter().filter(|name| !has_word(&body, name));
                wrong.extend(missing.map(|name| format!("{path}: no {name}")));
            }
        }
    }
    assert!(seen > 50, "the page names {seen} files");
    assert!(wrong.is_empty(), "{}", wrong.join("\n"));
}
