//! Pictures of lines: their numbers, worked out by hand. A line 18 points long takes 900 of the paper's 960, so that a point is
//! 50, and begins at 30.

mod common;

use common::{complex, font_of, font_with_advances, longs, simple, with_actions, with_ligature, with_list, words};
use std::path::PathBuf;
use std::process::{Command, Output};

/// A file of its own for a test.
fn file(name: &str, bytes: &[u8]) -> String {
    let path: PathBuf = [env!("CARGO_TARGET_TMPDIR"), name].iter().collect();
    std::fs::write(&path, bytes).expect("a file");
    path.to_str().expect("a path").into()
}

fn run(words: &[&str]) -> Output {
    Command::new(env!("CARGO_BIN_EXE_just-sheet")).arg("--picture").args(words).output().expect("the command runs")
}

fn picture(words: &[&str]) -> String {
    let output = run(words);
    assert_eq!((output.status.code(), &output.stderr[..]), (Some(0), &[][..]));
    String::from_utf8(output.stdout).expect("text")
}

/// What is complained of; the exit status is 2.
fn complains(words: &[&str]) -> String {
    let output = run(words);
    assert_eq!((output.status.code(), output.stdout.len()), (Some(2), 0));
    String::from_utf8(output.stderr).expect("text")
}

/// The class, the left end and the width of the boxes and movements of both lines, in the order of the file.
fn areas(svg: &str) -> Vec<(&str, f64, f64)> {
    let attribute = |line: &str, name: &str| -> f64 {
        let from = line.find(&format!(" {name}=\"")).expect("an attribute") + name.len() + 3;
        line[from..].split('"').next().expect("a value").parse().expect("a number")
    };
    let tall = svg.lines().filter(|line| line.starts_with("<rect") && line.contains("height=\"46.00\""));
    tall.map(|line| (line.split('"').nth(1).expect("a class"), attribute(line, "x"), attribute(line, "width")))
        .collect()
}

/// The texts of a picture, in the order of the file.
fn texts(svg: &str) -> Vec<&str> {
    let texts = svg.lines().filter(|line| line.starts_with("<text"));
    texts.map(|line| line.split(['<', '>']).nth(2).expect("a text")).collect()
}

/// The cells of the table, row by row, without its head.
fn rows(svg: &str) -> Vec<String> {
    let texts = texts(svg);
    let head = texts.iter().position(|text| text.starts_with("what fires")).expect("a table");
    texts[head + 1..].iter().map(|text| text.to_string()).collect()
}

/// Glyphs 3 and 4 advance by 0.7 em, glyph 2 by 0.25; glyph 2 grows by up to half an em on each side, in stage 1.
fn plain_font() -> Vec<u8> {
    font_with_advances(&simple(), 280, &[500, 600, 250, 700])
}

/// Glyph 2 alone, 2.5 points long in a column of 22.5, may grow by 5 points on each side.
#[test]
fn a_line_past_its_limits_by_either_edition() {
    let font = file("picture-limits", &plain_font());
    let line = [&font[..], "2", "22.5", "10"];
    let by = |edition: &'static str| [&line[..], &[edition]].concat();
    let gx = picture(&line);
    assert_eq!(rows(&gx), ["0", "2", "0", "2.500", "+10.000", "+10.000", "10.000", "12.500"]);
    assert_eq!(gx, picture(&by("1")));
    let within = picture(&by("2"));
    assert_eq!(rows(&within), ["0", "2", "0", "2.500", "+5.000", "+5.000", "5.000", "7.500"]);
    assert_eq!(texts(&within)[0], "picture-limits: 1 glyph at 10 pt in a column of 22.5 pt, within the limits");
    assert_eq!(texts(&within)[1], "advances 2.5 pt, gap +20 pt, of which +10 pt are left over");
    assert!(complains(&by("3")).contains("refused 18"));
    assert!(complains(&by("one")).contains("one is no edition"));
}

#[test]
fn a_line_that_grows() {
    let font = file("picture-grows", &plain_font());
    let svg = picture(&[&font, "3 2 4", "18", "10"]);
    let plain = [("box", 30.0, 350.0), ("box", 380.0, 125.0), ("box", 505.0, 350.0)];
    let justified = [("box", 30.0, 350.0), ("box", 417.5, 125.0), ("box", 580.0, 350.0)];
    let moved = [("before", 380.0, 37.5), ("after", 542.5, 37.5)];
    assert_eq!(areas(&svg), [&plain[..], &justified, &moved].concat());
    let table = [
        ["0", "3", "0", "7.000", "0", "0", "0.000", "7.000"],
        ["1", "2", "0", "2.500", "+0.750", "+0.750", "7.750", "10.250"],
        ["2", "4", "0", "7.000", "0", "0", "11.000", "18.000"],
    ];
    assert_eq!(rows(&svg), table.concat());
    assert_eq!(texts(&svg)[0], "picture-grows: 3 glyphs at 10 pt in a column of 18 pt");
    assert_eq!(texts(&svg)[1], "advances 16.5 pt, gap +1.5 pt, of which 0 pt are left over");
    assert!(svg.contains("<title>place 1, before: +0.75 pt</title>"));
    // The edges of the column.
    for x in ["30.00", "930.00"] {
        assert!(svg.contains(&format!("<line class=\"edge\" x1=\"{x}\"")), "{x}");
    }
}

#[test]
fn from_right_to_left() {
    let font = file("picture-rtl", &plain_font());
    let svg = picture(&["--rtl", &font, "3 2 4", "18", "10"]);
    let plain = [("box", 580.0, 350.0), ("box", 455.0, 125.0), ("box", 105.0, 350.0)];
    let justified = [("box", 580.0, 350.0), ("box", 417.5, 125.0), ("box", 30.0, 350.0)];
    // Before is at the left all the same.
    let moved = [("before", 380.0, 37.5), ("after", 542.5, 37.5)];
    assert_eq!(areas(&svg), [&plain[..], &justified, &moved].concat());
    assert_eq!(rows(&svg)[8..16], ["1", "2", "0", "2.500", "+0.750", "+0.750", "7.750", "10.250"]);
}

#[test]
fn a_line_that_shrinks() {
    let font = file("picture-shrinks", &plain_font());
    // The gap of half a point is shared between the sides of glyph 2.
    let svg = picture(&[&font, "3 2 4 0 0", "26", "10"]);
    assert_eq!(rows(&svg)[8..16], ["1", "2", "0", "2.500", "-0.250", "-0.250", "6.750", "9.250"]);
    let back: Vec<_> = areas(&svg).into_iter().filter(|area| area.0.ends_with("back")).collect();
    let point = 900.0 / 26.5;
    for ((class, x, width), (wanted, from)) in back.into_iter().zip([("before back", 6.75), ("after back", 9.0)]) {
        assert_eq!(class, wanted);
        assert!((x - (30.0 + from * point)).abs() < 0.01 && (width - 0.25 * point).abs() < 0.01, "{class}");
    }
}

#[test]
fn what_nothing_can_take_is_left_over() {
    let font = file("picture-left", &plain_font());
    let svg = picture(&[&font, "0 65535 1", "12.5", "10"]);
    assert_eq!(texts(&svg)[1], "advances 11 pt, gap +1.5 pt, of which +1.5 pt are left over");
    assert_eq!(rows(&svg)[8..16], ["1", "65535", "0", "0.000", "0", "0", "5.000", "5.000"]);
}

#[test]
fn an_empty_line() {
    let font = file("picture-empty", &plain_font());
    assert_eq!(rows(&picture(&[&font, "", "0", "10"])), [""; 0]);
}

/// The words beside the first glyph of a line that grows by a point, at 10 points.
fn fires(name: &str, table: &[u8], glyphs: u16, line: &str) -> Vec<String> {
    let font = file(name, &font_with_advances(table, glyphs, &[0]));
    rows(&picture(&[&font, line, "1", "10"]))[8..].to_vec()
}

#[test]
fn what_fires_in_words() {
    assert_eq!(fires("picture-kashida", &complex(), 280, "3 4 2")[0], "adds glyph 226");
    assert!(fires("picture-whole", &with_ligature(), 2, "0").is_empty());
    assert_eq!(fires("picture-stretch", &with_actions(2), 1, "0"), ["is stretched", "is stretched"]);
    let action = |ty: u16, data: Vec<u8>| [words(&[0, ty]), longs(&[8 + data.len() as u32]), data].concat();
    // From 0.1 em, which is a point, glyph 1 takes its place; else glyph 2 is added.
    let substitute = |threshold| action(2, [longs(&[threshold]), words(&[2, 1])].concat());
    let none = action(2, [longs(&[1 << 16]), words(&[0xFFFF, 1])].concat());
    let axis = action(4, [b"duct".to_vec(), longs(&[0, 0, 0])].concat());
    let repeat = action(5, words(&[0, 2]));
    let list = [substitute(6_553), substitute(6_555), none, axis, repeat].concat();
    let said = [
        "becomes glyph 1, adds glyph 2",
        "adds glyph 2",
        "adds nothing",
        "is stretched along axis duct",
        "adds glyph 2 repeatedly",
    ];
    assert_eq!(fires("picture-deeds", &with_list(5, &list), 3, "0"), said);
}

#[test]
fn a_ligature_breaks_and_long_words_are_wrapped() {
    let components: Vec<u16> = (0..32).map(|_| 100).collect();
    let data = [longs(&[0, 0]), words(&[0, 32]), words(&components)].concat();
    let action = [words(&[0, 0]), longs(&[8 + data.len() as u32]), data].concat();
    let lines = fires("picture-breaks", &with_list(1, &action), 101, "0");
    assert_eq!(lines.join(" "), format!("breaks into{}", " 100".repeat(32)));
    assert!(lines.len() > 2 && lines.iter().all(|line| line.len() <= 48));
}

#[test]
fn names_are_written_as_text() {
    let font = file("picture-a<b&c>", &plain_font());
    assert!(picture(&[&font, "3", "8", "10"]).contains(">picture-a&lt;b&amp;c&gt;: 1 glyph at"));
}

#[test]
fn refusals_and_wrong_words() {
    let font = file("picture-refused", &plain_font());
    let said = |words: [&str; 3]| complains(&[&font, words[0], words[1], words[2]]);
    assert!(said(["3 x", "18", "10"]).contains("x is no glyph number"));
    assert!(said(["3", "wide", "10"]).contains("wide is no number of points"));
    assert!(said(["3", "18", "inf"]).contains("inf is no number of points"));
    assert!(said(["280", "18", "10"]).contains("the line is refused 13"));
    assert!(said(["3", "18", "0"]).contains("the line is refused 11"));
    assert!(said(["3", "-1", "10"]).contains("the line is refused 12"));
    assert!(complains(&[&font, "3", "18"]).contains("usage"));
    let bare = file("picture-bare", &font_of(&simple(), 280));
    assert!(complains(&[&bare, "3", "18", "10"]).contains("no advances: the font has no 'head' table"));
    let table = file("picture-table", &simple());
    assert!(complains(&[&table, "3", "18", "10"]).contains("a table that is in no font"));
    let none = file("picture-none", &common::font(&[(b"maxp", &common::maxp(1))]));
    assert!(complains(&[&none, "3", "18", "10"]).contains("refused 22"));
}
