//! What the tests of pages and sources share: reading a page, and the names in it.

// Each test is a program of its own, and uses some of this.
#![allow(dead_code)]

use std::path::Path;

pub const ROOT: &str = concat!(env!("CARGO_MANIFEST_DIR"), "/..");

pub fn page(path: &str) -> String {
    std::fs::read_to_string(Path::new(ROOT).join(path)).unwrap_or_else(|_| panic!("no page {path}"))
}

/// Whether a name can have this character; ◌ stands in an operator's for what it is between.
pub fn in_name(c: char) -> bool {
    c.is_alphanumeric() || "_-'◌".contains(c)
}

/// Whether a name stands in a text as a word of its own, and not as a part of a longer one.
pub fn has_word(text: &str, name: &str) -> bool {
    text.match_indices(name).any(|(at, _)| {
        let (before, after) = (text[..at].chars().next_back(), text[at + name.len()..].chars().next());
        !before.is_some_and(in_name) && !after.is_some_and(in_name)
    })
}
