//! Every function of the library but `main` has a statement: an `ensures` between its signature and its body, which speaks
//! of its answer or of what a lent slice holds afterwards. That of a conversion stands in the `impl` around it: `from_gives`,
//! of what is given and what comes of it.

mod pages;

use pages::in_name;
use std::path::{Path, PathBuf};

const CRATES: &str = concat!(env!("CARGO_MANIFEST_DIR"), "/../crates");

fn in_folder(folder: &Path) -> Vec<PathBuf> {
    std::fs::read_dir(folder).into_iter().flatten().flatten().map(|entry| entry.path()).collect()
}

/// The sources of the library: crates/*/src/*.rt.
fn sources() -> Vec<PathBuf> {
    let files = in_folder(Path::new(CRATES)).into_iter().flat_map(|crate_| in_folder(&crate_.join("src")));
    files.filter(|file| file.extension().is_some_and(|end| end == "rt")).collect()
}

/// The functions of a source, methods too: a name, and the text from the name on. Comments are left out.
fn functions(code: &str) -> Vec<(&str, &str)> {
    let begins = |at: usize| !code[..at].chars().next_back().is_some_and(in_name);
    let texts = code.match_indices("fn ").filter(|(at, _)| begins(*at)).map(|(at, _)| &code[at + 3..]);
    texts.map(|text| (text.split(|c| !in_name(c)).next().unwrap_or(""), text)).collect()
}

/// What stands in the brackets that open where the text begins.
fn bracketed(text: &str) -> &str {
    let mut depth = 0;
    for (at, c) in text.char_indices() {
        depth += i32::from(c == '{') - i32::from(c == '}');
        if depth == 0 {
            return &text[1..at];
        }
    }
    ""
}

/// Whether a text ends in the head of such a clause: `ensures`, or `ensures NAME` where it has a name of its own.
fn is_head(text: &str, kind: &str) -> bool {
    let mut words = text.split_whitespace().rev().map(|word| word.trim_end_matches('*'));
    let (last, before) = (words.next(), words.next());
    last == Some(kind) || before == Some(kind) && last.is_some_and(|name| name.chars().all(in_name))
}

/// Whether a function is a conversion whose `impl`, which begins before it, says what it gives: `from_gives`, of two values.
fn is_conversion(name: &str, before: &str) -> bool {
    let around = before.rfind("\nimpl").map_or("", |at| &before[at..]);
    let gives = around.split("ghost from_gives = {").nth(1).unwrap_or("");
    let mut bound = gives.split(['λ', '.']).nth(1).unwrap_or("").split_whitespace();
    let (given, made) = (bound.next().unwrap_or(""), bound.next().unwrap_or(""));
    let said = gives.split_once('.').map_or("", |(_, said)| said);
    let names = |word: &str| word != "" && said.split(|c| !in_name(c)).any(|name| name == word);
    name == "from" && around.contains(" From<") && names(given) && names(made)
}

/// What a function promises: each `ensures` of its text that comes before its body.
fn promises(text: &str) -> Vec<&str> {
    let mut found = Vec::new();
    let mut rest = text;
    while let Some(open) = rest.find('{') {
        let clause = bracketed(&rest[open..]);
        let head = &rest[..open];
        if is_head(head, "ensures") {
            found.push(clause);
        } else if !is_head(head, "requires") {
            break;
        }
        rest = &rest[open + clause.len() + 2..];
    }
    found
}

/// Whether a promise speaks of `result`, or of `s.new` or `s.exit`, what is lent as it is afterwards.
fn says_something(promise: &str) -> bool {
    let first_word = |text: &str| text.split(|c| !in_name(c)).next().unwrap_or("").to_string();
    let has_after = promise.match_indices('.').any(|(at, _)| {
        let is_of_one = promise[..at].chars().next_back().is_some_and(|c| in_name(c) || c == ')');
        is_of_one && ["new", "exit"].contains(&first_word(&promise[at + 1..]).as_str())
    });
    has_after || promise.split(|c| !in_name(c)).any(|word| word == "result")
}

#[test]
fn every_function_is_stated() {
    let mut seen = 0;
    let mut bare = Vec::new();
    for file in sources() {
        let source = std::fs::read_to_string(&file).expect("a source");
        let code: String = source.lines().flat_map(|line| [line.split("//").next().unwrap_or(""), "\n"]).collect();
        for (name, text) in functions(&code).into_iter().filter(|(name, _)| *name != "main") {
            seen += 1;
            let before = &code[..text.as_ptr() as usize - code.as_ptr() as usize];
            if !promises(text).into_iter().any(says_something) && !is_conversion(name, before) {
                bare.push(format!("{}: {name}", file.display()));
            }
        }
    }
    assert!(seen > 300, "there are {seen} functions");
    assert!(bare.is_empty(), "{}", bare.join("\n"));
}

/// The test above can fail: of these seven functions the first, the fifth and the last are stated; the second and the third
/// have no `ensures` of their own, and those of the fourth and the sixth say nothing of what they do.
const SEVEN: &str = "
fn a(x: u8) -> u8 requires { x < 9 } ensures { record { a = result } ≡ b } { x }
fn b() -> u8 { 1 }
fn c(x: u8) -> u8 requires low { x < 9 } requires high { 3 < x } { x }
pub fn d(self) -> u8 ensures { record { a = b } ≡ b } { 1 }
fn e(s: &mut [u8]) requires low { 0 < length s.old } ensures same { b ≡ b } ensures after { s.new ≡ b } {}
fn f(s: &mut [u8]) -> u8 ensures one { s.old ≡ results } ensures other { s.newer ≡ new } { result.new }
fn g(s: &mut [u8]) -> u8 requires { x < 9 } ensures value { b ≡ b } ensures more { result ≡ b } { 1 }";

/// Of these three conversions the first says what it gives; the second says nothing, the third nothing of what it is given.
const THREE: &str = "
impl From<A> for B {
    ghost from_gives = { λ a b. b ≡ f a };
    fn from(a: A) -> B { 1 }
}
impl From<C> for B {
    fn from(c: C) -> B { 1 }
}
impl From<D> for B {
    ghost from_gives = { λ _ b. b ≡ b };
    fn from(d: D) -> B { 1 }
}";

#[test]
fn what_converts_is_stated() {
    let code = THREE.to_string();
    let before = |text: &str| &code[..text.as_ptr() as usize - code.as_ptr() as usize];
    let stated: Vec<bool> =
        functions(&code).into_iter().map(|(name, text)| is_conversion(name, before(text))).collect();
    assert_eq!(stated, [true, false, false]);
}

#[test]
fn what_is_not_stated_is_found() {
    let stated = |text: &str| promises(text).into_iter().any(says_something);
    let names: Vec<&str> =
        functions(SEVEN).into_iter().filter(|(_, text)| stated(text)).map(|(name, _)| name).collect();
    assert_eq!(names, ["a", "e", "g"]);
}
