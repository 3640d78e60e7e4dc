//! Whole fonts, built from document 02's request 12/14: what is opened, what is refused, and what a refusal speaks of.

mod common;

use common::{checksum, complex, font, font_of, longs, maxp, words, GLYPHS};
use just::{Font, FontPlace, Meaning, Table};

/// Where the records of 'just' and 'maxp' stand in a font of three tables, and where its tables begin.
const JUST: usize = 28;
const MAXP: usize = 44;
const START: usize = 60;

/// The refusal of a font, and what it speaks of in brackets.
fn says(font: &[u8]) -> String {
    let refusal = Font::open(font).expect_err("a refusal");
    match FontPlace::of(font, refusal) {
        Some(place) => format!("{} ({place})", refusal.number()),
        None => refusal.number().to_string(),
    }
}

/// A font with some bytes changed.
fn with(font: &[u8], at: usize, bytes: &[u8]) -> Vec<u8> {
    let mut changed = font.to_vec();
    changed[at..at + bytes.len()].copy_from_slice(bytes);
    changed
}

/// A small font: 'just', a bare header, at 68, 'maxp' at 80.
fn small() -> Vec<u8> {
    font_of(&[0, 1, 0, 0, 0, 0, 0, 0, 0, 0], 3)
}

#[test]
fn a_font_answers_as_its_table() {
    let bytes = font_of(&complex(), GLYPHS as u16);
    let font = Font::open(&bytes).expect("a font");
    let whole = complex();
    let table = Table::new(&whole, GLYPHS).expect("a table");
    assert_eq!((font.table_offset(), font.table().bytes()), (START + 8, table.bytes()));
    assert_eq!(font.table().glyph_count(), GLYPHS);
    assert_eq!(font.table().write_sheet(), table.write_sheet());
}

#[test]
fn what_is_not_looked_at() {
    let bytes = small();
    for version in [*b"OTTO", *b"true", *b"ttcf", [0xFF; 4]] {
        assert!(Font::open(&with(&bytes, 0, &version)).is_ok());
    }
    // The search fields, another table's record, and the bytes of that table and between tables.
    for at in (6..12).chain(16..JUST).chain(START..START + 8).chain([78, 79, 86, 87]) {
        assert!(Font::open(&with(&bytes, at, &[0x5A])).is_ok(), "byte {at}");
    }
}

#[test]
fn the_directory() {
    let bytes = small();
    for length in 0..START {
        assert_eq!(says(&bytes[..length]), "21 (the directory)");
    }
    assert_eq!(says(&with(&bytes, 4, &[0, 5])), "21 (the directory)");
    // Without tables there is nothing to find.
    assert_eq!(says(&with(&bytes, 4, &[0, 0])), "22 ('just')");
}

#[test]
fn a_missing_table() {
    let bytes = small();
    assert_eq!(says(&with(&bytes, JUST, b"Just")), "22 ('just')");
    assert_eq!(says(&with(&bytes, MAXP, b"maxq")), "22 ('maxp')");
    // Before any fault of the one that is there.
    assert_eq!(says(&with(&with(&bytes, MAXP, b"maxq"), JUST + 8, &[0xFF; 8])), "22 ('maxp')");
}

#[test]
fn a_table_that_is_not_wholly_there() {
    let bytes = small();
    assert_eq!(bytes.len(), 88);
    for length in START..78 {
        assert_eq!(says(&bytes[..length]), "21 ('just')");
    }
    for length in 78..86 {
        assert_eq!(says(&bytes[..length]), "21 ('maxp')");
    }
    // Offset and length past 32 bits; a length of 0 at the end of the file, which is there, and past it.
    assert_eq!(says(&with(&bytes, JUST + 8, &longs(&[0xFFFF_FFFC, 72]))), "21 ('just')");
    assert_eq!(says(&with(&bytes, JUST + 4, &longs(&[0, 88, 0]))), "1");
    assert_eq!(says(&with(&bytes, JUST + 4, &longs(&[0, 89, 0]))), "21 ('just')");
    // 'maxp' of 5 bytes, with its checksum.
    let short = font(&[(b"just", &[0, 1, 0, 0, 0, 0, 0, 0, 0, 0]), (b"maxp", &maxp(3)[..5])]);
    assert_eq!(says(&short), "21 ('maxp')");
}

#[test]
fn a_wrong_checksum() {
    let bytes = small();
    assert_eq!(says(&with(&bytes, JUST + 7, &[1])), "23 ('just')");
    assert_eq!(says(&with(&bytes, MAXP + 7, &[1])), "23 ('maxp')");
    // As if the bytes that follow 'just', EEEE, filled its last word.
    assert_eq!(says(&with(&bytes, JUST + 4, &longs(&[0x0001_EEEE]))), "23 ('just')");
    // Before the table's own refusals: another version.
    assert_eq!(says(&with(&bytes, 69, &[2])), "23 ('just')");
}

#[test]
fn carries_are_thrown_away() {
    // A 'maxp' of 10 bytes: FFFFFFFF + 0003FFFF + FFFF0000 is 2 0002FFFE.
    let long = [longs(&[0xFFFF_FFFF, 0x0003_FFFF]), words(&[0xFFFF])].concat();
    assert_eq!(checksum(&long), 0x0002_FFFE);
    let bytes = font(&[(b"just", &[0, 1, 0, 0, 0, 0, 0, 0, 0, 0]), (b"maxp", &long)]);
    assert_eq!(Font::open(&bytes).expect("a font").table().glyph_count(), 3);
}

#[test]
fn the_first_of_a_tag_counts() {
    let table = [0, 1, 0, 0, 0, 0, 0, 0, 0, 0];
    let bytes = font(&[(b"just", &table), (b"just", &[9; 9]), (b"maxp", &maxp(3)), (b"maxp", &maxp(4))]);
    let opened = Font::open(&bytes).expect("a font");
    assert_eq!((opened.table().bytes(), opened.table().glyph_count()), (&table[..], 3));
    assert_eq!(says(&font(&[(b"just", &[9; 9]), (b"just", &table), (b"maxp", &maxp(3))])), "1");
}

#[test]
fn the_tables_own_refusals() {
    assert_eq!(says(&font_of(&[0, 1, 0, 0, 0, 0, 0, 0, 0, 0], 0)), "2");
    assert_eq!(says(&font_of(&[0, 2, 0, 0, 0, 0, 0, 0, 0, 0], 1)), "3");
    // The horizontal direction begins at byte 10 of 'just', where that ends and the font goes on.
    let cut = font_of(&[0, 1, 0, 0, 0, 0, 0, 10, 0, 0], 1);
    assert_eq!(Font::open(&cut).unwrap_err().offset, 10);
    assert_eq!(says(&cut), "4 (horizontal: offset of the machine)");
}

/// Every cut of a font, and every change of one byte to some others.
#[test]
fn every_fault_of_a_damaged_font_has_its_place() {
    let whole = font_of(&complex(), GLYPHS as u16);
    let mut damaged: Vec<Vec<u8>> = (0..whole.len()).map(|length| whole[..length].to_vec()).collect();
    for at in 0..whole.len() {
        damaged.extend([1, 16, 128, 255].map(|change| with(&whole, at, &[whole[at] ^ change])));
    }
    let refused = damaged.iter().filter_map(|font| Some((font, Font::open(font).err()?)));
    for (font, refusal) in refused {
        let wanted = matches!(refusal.number(), 4..=8 | 21..=23);
        assert_eq!(FontPlace::of(font, refusal).is_some(), wanted, "{refusal}");
    }
}
