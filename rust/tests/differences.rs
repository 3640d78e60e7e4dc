//! What changed between two deliveries, in Rust and by `just-sheet --diff`. Expected lines are worked out by hand from the
//! source document's table and from the bytes that a second delivery changes.

mod common;

use common::command::{complains, file, says};
use common::{complex, longs, with_ligature, words, GLYPHS};
use just::{Difference, DifferingPart, Direction, Mark, Table, UnlikeCounts};

/// A second delivery of Apple's complex example. The width lookup is at 16, with its units at 28, the second cluster at 76, the
/// action lookup at 128, its list at 152, and the machine at 168, with class bytes at 188, for glyphs 3 to 225, and cells at 412.
fn delivered() -> Vec<u8> {
    let mut bytes = complex();
    bytes[285..288].fill(1); // glyphs 100 to 102 are of no class
    bytes[431] = 1; // row 3, class 4 names the second entry
    bytes[34..36].copy_from_slice(&words(&[227])); // the second cluster is for glyphs 3 to 227
    bytes[108..112].copy_from_slice(&longs(&[0x4000])); // its second pair grows by a quarter of an em before
    bytes[124..126].copy_from_slice(&words(&[1])); // with priority 1, not unlimited
    bytes[140..142].copy_from_slice(&words(&[225])); // the action list is for glyphs 2 to 225
    bytes[164..166].copy_from_slice(&words(&[225])); // and adds glyph 225
    bytes
}

/// The same meaning in other bytes: a shrink limit without its sign, and a byte after the end.
fn rewritten(mut bytes: Vec<u8>) -> Vec<u8> {
    bytes[60..64].copy_from_slice(&longs(&[0x0B00]));
    bytes.push(7);
    bytes
}

/// A table with a cluster for each glyph, and in each a pair for class 0 and one for class 1, which grow by so many ems.
fn growing(ems: &[[u32; 2]]) -> Vec<u8> {
    let count = ems.len() as u16;
    let clusters = 22 + 2 * count;
    let mut bytes = [longs(&[0x0001_0000]), words(&[0, 10, 0, 0, clusters, 0, 8, 0, count])].concat();
    bytes.extend(words(&(0..count).map(|glyph| 52 * glyph).collect::<Vec<_>>()));
    for both in ems {
        bytes.extend(longs(&[2]));
        for (class, em) in (0..).zip(both) {
            bytes.extend([longs(&[class, em << 16, 0, em << 16, 0]), words(&[0, 0])].concat());
        }
    }
    bytes
}

/// What a line says of a class that grew by one number of ems and now does by another.
fn grew(glyphs: &str, class: u8, from: u32, to: u32) -> String {
    let record = |em| format!("before +{em} -0, after +{em} -0 em, priority growing 0, shrinking 0");
    format!("horizontal record glyph {glyphs} class {class} changed: {} -> {}\n", record(from), record(to))
}

#[test]
fn a_second_delivery_is_told_in_runs() {
    let [a, b] = [file("diff-a", &complex()), file("diff-b", &delivered())];
    assert_eq!(says(&["--diff", &a, &b, "280"]), (include_str!("delivery.txt").into(), 1));
}

#[test]
fn the_readme_has_its_lines() {
    let shown: String = include_str!("delivery.txt").lines().map(|line| format!("    {line}\n")).collect();
    assert!(include_str!("../../README.md").contains(&shown));
}

#[test]
fn each_glyph_has_its_line_where_that_is_asked() {
    let [a, b] = [file("each-a", &complex()), file("each-b", &delivered())];
    let (text, status) = says(&["--diff", "--each", &a, &b, "280"]);
    let lines: Vec<&str> = text.lines().collect();
    assert_eq!((lines.len(), status), (456, 1));
    let classes = [100, 101, 102].map(|glyph| format!("horizontal class glyph {glyph} changed: 4 -> 1"));
    assert_eq!(lines[..3], classes);
    assert!(lines[4].starts_with("horizontal record glyph 3 class 1 changed: before +0.14453125"), "{}", lines[4]);
    assert_eq!(lines[230], "horizontal actions glyph 2 changed: class 1: add glyph 226 -> class 1: add glyph 225");
    assert_eq!(lines[455], include_str!("delivery.txt").lines().last().expect("the counts"));
}

#[test]
fn nothing_changed() {
    let [a, b] = [file("equal-a", &complex()), file("equal-b", &rewritten(complex()))];
    let none = "differences: 0 (sizes 0, class 0, cell 0, record 0, actions 0)\n";
    assert_eq!(says(&["--diff", &a, &b, "280"]), (none.into(), 0));
    assert_eq!(says(&["--diff", "--each", &a, &a, "280"]), (none.into(), 0));
}

#[test]
fn equal_changes_are_folded_only_in_a_row() {
    // Glyphs 0 and 1 have unlike clusters, but what changed of them is the same; nothing changed of glyph 2.
    let a = file("fold-a", &growing(&[[1, 1], [1, 2], [3, 3], [1, 1]]));
    let b = file("fold-b", &growing(&[[2, 1], [2, 2], [3, 3], [2, 1]]));
    let counts = "differences: 3 (sizes 0, class 0, cell 0, record 3, actions 0)\n";
    assert_eq!(says(&["--diff", &a, &b, "4"]).0, [grew("0-1", 0, 1, 2), grew("3", 0, 1, 2), counts.into()].concat());
    // In a run that has several changes each has a line.
    let a = file("several-a", &growing(&[[1, 1], [1, 1], [1, 1]]));
    let b = file("several-b", &growing(&[[2, 3], [2, 3], [2, 1]]));
    let lines = [grew("0-1", 0, 1, 2), grew("0-1", 1, 1, 3), grew("2", 0, 1, 2)];
    let counts = "differences: 5 (sizes 0, class 0, cell 0, record 5, actions 0)\n";
    assert_eq!(says(&["--diff", &a, &b, "3"]).0, [&lines.concat(), counts].concat());
    let lines = [grew("0", 0, 1, 2), grew("0", 1, 1, 3), grew("1", 0, 1, 2), grew("1", 1, 1, 3), grew("2", 0, 1, 2)];
    assert_eq!(says(&["--diff", "--each", &a, &b, "3"]).0, [&lines.concat(), counts].concat());
}

#[test]
fn a_machine_in_one_table_alone() {
    let mut bytes = complex();
    bytes[10..12].fill(0);
    let [a, b] = [file("machine-a", &complex()), file("machine-b", &bytes)];
    let counts = "differences: 1 (sizes 1, class 0, cell 0, record 0, actions 0)\n";
    let first = format!("horizontal sizes only-in-first: 4 rows and 5 classes\n{counts}");
    assert_eq!(says(&["--diff", &a, &b, "280"]), (first, 1));
    let second = format!("horizontal sizes only-in-second: 4 rows and 5 classes\n{counts}");
    assert_eq!(says(&["--diff", &b, &a, "280"]), (second, 1));
}

#[test]
fn machines_of_unlike_sizes() {
    // The third entry, at 440, leads to row 2 and no longer to row 3, so there are three rows. The other changes of the machine
    // are not listed then, those of records and actions are.
    let mut bytes = delivered();
    bytes[440..442].copy_from_slice(&words(&[246]));
    let [a, b] = [file("sizes-a", &complex()), file("sizes-b", &bytes)];
    let rest: Vec<&str> = include_str!("delivery.txt").lines().collect();
    let lines = [
        &["horizontal sizes changed: 4 rows and 5 classes -> 3 rows and 5 classes"],
        &rest[2..7],
        &["differences: 452 (sizes 1, class 0, cell 0, record 226, actions 225)", ""],
    ];
    assert_eq!(says(&["--diff", &a, &b, "280"]), (lines.concat().join("\n"), 1));
}

#[test]
fn horizontal_comes_before_vertical() {
    let mut turned = with_ligature();
    turned[6..10].copy_from_slice(&words(&[0, 10]));
    let [a, b] = [file("way-a", &with_ligature()), file("way-b", &turned)];
    let lines = |way: &str, mark: &str| {
        let record = "before +0 -0, after +0 -0 em, priority growing 0 unlimited, shrinking 0";
        let actions = "class 0: decompose below 0 or above 0.5 em, order 7, into 1 0";
        format!("{way} record glyph 0 class 0 {mark}: {record}\n{way} actions glyph 0 {mark}: {actions}\n")
    };
    let counts = "differences: 4 (sizes 0, class 0, cell 0, record 2, actions 2)\n";
    let text = [&lines("horizontal", "only-in-first"), &lines("vertical", "only-in-second"), counts].concat();
    assert_eq!(says(&["--diff", &a, &b, "2"]), (text, 1));
}

#[test]
fn refused_tables_and_wrong_words() {
    let mut bytes = complex();
    bytes[60] = 0x7F;
    let [good, bad] = [file("good", &complex()), file("bad", &bytes)];
    bytes[0] = 1;
    let worse = file("worse", &bytes);
    let said = "refused 6 at byte 60: a width cluster breaks its rule (horizontal, glyph 2, pair 0: before shrink)";
    assert_eq!(complains(&["--diff", &good, &bad, "280"]), format!("just-sheet: {bad}: {said}\n"));
    assert_eq!(complains(&["--diff", "--each", &bad, &worse, "280"]), format!("just-sheet: {bad}: {said}\n"));
    assert!(complains(&["--diff", &worse, &bad, "280"]).contains("worse: refused 3"));
    for words in
        [&["--diff", &good, "280"][..], &["--diff", "--each", &good, "280"], &["--diff", "--same", &good, &good, "1"]]
    {
        assert!(complains(words).contains("usage"), "{words:?}");
    }
}

#[test]
fn differences_are_typed() {
    let (first, second) = (complex(), delivered());
    let [first, second] = [&first, &second].map(|bytes| Table::new(bytes, GLYPHS).expect("a table"));
    let list = first.differences(&second).expect("one glyph count");
    assert_eq!((list.len(), first.difference_count(&second)), (455, Ok(455)));
    let of = |part, mark| Difference { direction: Direction::Horizontal, part, mark };
    let classes = [100, 101, 102].map(|glyph| of(DifferingPart::Class { glyph }, Mark::Changed));
    assert_eq!(list[..3], classes);
    assert_eq!(list[3], of(DifferingPart::Cell { row: 3, class: 4 }, Mark::Changed));
    assert_eq!(list[4], of(DifferingPart::Record { glyph: 3, class: 1 }, Mark::Changed));
    let new = [0, 1].map(|class| of(DifferingPart::Record { glyph: 227, class }, Mark::OnlyInSecond));
    assert_eq!(list[228..230], new);
    assert_eq!(list[454], of(DifferingPart::Actions { glyph: 226 }, Mark::OnlyInFirst));
    // The other way round the marks change places.
    let back = second.differences(&first).expect("one glyph count");
    assert_eq!(back[454], of(DifferingPart::Actions { glyph: 226 }, Mark::OnlyInSecond));
    assert_eq!(back[228].mark, Mark::OnlyInFirst);
}

#[test]
fn tables_of_unlike_glyph_counts_have_no_list() {
    let bytes = complex();
    let [first, second] = [280, 281].map(|count| Table::new(&bytes, count).expect("a table"));
    let unlike = first.differences(&second).unwrap_err();
    assert_eq!(unlike, UnlikeCounts { first: 280, second: 281 });
    assert_eq!(second.difference_count(&first), Err(UnlikeCounts { first: 281, second: 280 }));
    let said = "the first table is read with 280 glyphs and the second with 281: ";
    assert!(unlike.to_string().starts_with(said), "{unlike}");
}
