//! The command `just-sheet`. Expected hex is document 01's sample; expected text is read off the source document's tables.

mod common;

use common::command::{complains, file, says};

const EMPTY: [u8; 10] = [0, 1, 0, 0, 0, 0, 0, 0, 0, 0];

#[test]
fn hex_of_the_sample() {
    let table = file("empty-hex", &EMPTY);
    let lines = format!("00000001\n{}", "00000000\n".repeat(16));
    assert_eq!(says(&[&table, "1"]), (lines, 0));
}

#[test]
fn a_last_line_may_be_short() {
    let table = file("complex-hex", &common::complex());
    let (text, status) = says(&[&table, "280"]);
    assert_eq!((text.lines().next(), text.lines().last(), status), (Some("00000118"), Some("0000"), 0));
    assert!(text.lines().rev().skip(1).all(|line| line.len() == 8));
}

#[test]
fn text_of_the_complex_example() {
    let table = file("complex-text", &common::complex());
    assert_eq!(says(&["--text", &table, "280"]), (include_str!("complex.txt").into(), 0));
}

#[test]
fn text_of_a_ligature() {
    let table = file("ligature", &common::with_ligature());
    let (text, _) = says(&["--text", &table, "2"]);
    assert!(text.contains("\n    class 0: decompose below 0 or above 0.5 em, order 7, into 1 0\n"), "{text}");
}

#[test]
fn the_same_or_not() {
    let mut other = common::complex();
    let a = file("same-a", &other);
    other[60..64].copy_from_slice(&0x0B00u32.to_be_bytes()); // a shrink limit without its sign
    let b = file("same-b", &other);
    other[63] = 1;
    let c = file("same-c", &other);
    assert_eq!(says(&["--same", &a, &b, "280"]), ("the same\n".into(), 0));
    assert_eq!(says(&["--same", &a, &b, "280", "280"]), ("the same\n".into(), 0));
    assert_eq!(says(&["--same", &a, &b, "280", "281"]), ("not the same\n".into(), 1));
    assert_eq!(says(&["--same", &a, &c, "280"]), ("not the same\n".into(), 1));
}

#[test]
fn a_refused_table_is_told_to_the_byte() {
    let mut bytes = common::complex();
    // The first cluster, that of glyph 2, stands at 48: the before shrink limit of its pair at 60.
    bytes[60] = 0x7F;
    let table = file("refused-cluster", &bytes);
    let said = "a width cluster breaks its rule (horizontal, glyph 2, pair 0: before shrink)";
    for words in [&[&table[..], "280"][..], &["--text", &table, "280"], &["--same", &table, &table, "280"]] {
        assert_eq!(complains(words), format!("just-sheet: {table}: refused 6 at byte 60: {said}\n"));
    }
}

#[test]
fn refusals_and_wrong_words() {
    let table = file("empty-refused", &EMPTY);
    let refused = complains(&[&table, "0"]);
    assert!(refused.ends_with("empty-refused: refused 2: the glyph count is outside 1 to 65,535\n"), "{refused}");
    assert!(complains(&["--same", &table, &table, "0"]).contains("refused 2"));
    assert!(complains(&["--text", &table, "65536"]).contains("refused 2"));
    assert!(complains(&[&table, "many"]).contains("many is no glyph count"));
    assert!(complains(&["no such file", "1"]).contains("no such file"));
    for words in [&[][..], &["--text"], &["--same", &table], &["--other", "1"], &[&table], &[&table, "1", "1"]] {
        assert!(complains(words).contains("usage"), "{words:?}");
    }
}

#[test]
fn a_font_is_read_with_its_own_glyph_count() {
    let table = file("font-table", &common::complex());
    let font = file("font", &common::font_of(&common::complex(), 280));
    assert_eq!(says(&[&font]), says(&[&table, "280"]));
    assert_eq!(says(&["--text", &font]), (include_str!("complex.txt").into(), 0));
    let said = "refused 3: the table's version or format is not known; it is a font, which is read without N";
    assert_eq!(complains(&[&font, "280"]), format!("just-sheet: {font}: {said}\n"));
}

#[test]
fn the_table_of_a_font_is_taken_out() {
    let font = file("font-whole", &common::font_of(&common::complex(), 280));
    let table = file("font-taken", &[]);
    assert_eq!(says(&["--table", &font, &table]), ("444 bytes, to be read with 280 glyphs\n".into(), 0));
    assert_eq!(std::fs::read(&table).expect("a table"), common::complex());
    assert!(complains(&["--table", &font, "no/such/folder"]).contains("no/such/folder: "));
    assert!(complains(&["--table", &table, "other"]).contains("a table that is in no font"));
}

#[test]
fn fonts_are_compared() {
    let mut other = common::complex();
    other[60..64].copy_from_slice(&0x0B00u32.to_be_bytes()); // a shrink limit without its sign
    let a = file("font-a", &common::font_of(&common::complex(), 280));
    let b = file("font-b", &common::font_of(&other, 280));
    let table = file("font-b-table", &other);
    other[63] = 1;
    let c = file("font-c", &common::font_of(&other, 280));
    assert_eq!(says(&["--same", &a, &b]), ("the same\n".into(), 0));
    assert_eq!(says(&["--same", &a, &c]), ("not the same\n".into(), 1));
    assert_eq!(says(&["--same", &a, &table, "280"]), ("the same\n".into(), 0));
    assert_eq!(says(&["--same", &table, &a, "280"]), ("the same\n".into(), 0));
    let more = file("font-more", &common::font_of(&other, 281));
    let said = format!("just-sheet: {a} has 280 glyphs and {more} has 281: they cannot be compared\n");
    assert_eq!(complains(&["--same", &a, &more]), said);
    assert!(complains(&["--same", &a, &table, "281"]).ends_with("font-b-table has 281: they cannot be compared\n"));
    assert!(complains(&["--same", &a, &b, "280"]).contains("more glyph counts than tables"));
    assert!(complains(&["--same", &a, &table]).contains("font-b-table: a table that is in no font wants"));
}

#[test]
fn a_refused_font_is_told_by_its_table() {
    let mut bytes = common::complex();
    bytes[60] = 0x7F;
    let font = file("font-refused", &common::font_of(&bytes, 280));
    let said = "a width cluster breaks its rule (horizontal, glyph 2, pair 0: before shrink)";
    for words in [&[&font[..]][..], &["--text", &font], &["--same", &font, &font]] {
        assert_eq!(complains(words), format!("just-sheet: {font}, table 'just': refused 6 at byte 60: {said}\n"));
    }
    let none = file("font-none", &common::font(&[(b"maxp", &common::maxp(1))]));
    let said = "the font has no 'just' or no 'maxp' table ('just')";
    assert_eq!(complains(&[&none]), format!("just-sheet: {none}: refused 22: {said}\n"));
}

#[test]
fn a_collection_is_not_read() {
    // 'ttcf', version 1.0, one font at 16.
    let fonts = [b"ttcf".to_vec(), common::longs(&[0x0001_0000, 1, 16]), common::font_of(&EMPTY, 1)].concat();
    let collection = file("collection", &fonts);
    assert!(complains(&[&collection]).contains("a collection of fonts (ttcf), which is not read"));
}
