//! Apple's complex example (source document 000) through the safe layer. The values are those of the source document, and
//! the numbers of the line are worked out by hand.

mod common;

use common::{complex, simple, GLYPHS};
use just::{
    Act, Action, Direction, Entry, Found, Justified, Limits, Line, Lookup, Meaning, Pair, Reason, Refusal, Rule, Sheet,
    Sizes, Table, Units, Verdict, DELETED, GX_RULE, POINT,
};

const WAY: Direction = Direction::Horizontal;

/// The same parts, asked of a table or of its sheet.
fn has_its_parts(meaning: &impl Meaning) {
    assert_eq!(meaning.glyph_count(), GLYPHS);
    assert_eq!(meaning.sizes(WAY), Some(Sizes { rows: 4, classes: 5 }));
    assert_eq!(meaning.sizes(Direction::Vertical), None);
    assert_eq!(meaning.class(WAY, 2), Some(1));
    assert_eq!(meaning.class(WAY, 3), Some(4));
    assert_eq!(meaning.class(WAY, GLYPHS as u16), None);
    let entry = meaning.cell(WAY, 0, 4).expect("a cell");
    assert_eq!(entry, Entry { row: 2, flags: 1 });
    assert_eq!((entry.sets_mark(), entry.stays(), entry.mark_class(), entry.current_class()), (false, false, 0, 1));
    assert_eq!(meaning.cell(WAY, 4, 0), None);
    let limits = Limits { grow: 0x2500, shrink: 0x0B00 };
    let (grow, shrink) = (Rule { priority: 0, unlimited: true }, Rule { priority: 2, unlimited: false });
    assert_eq!(meaning.record(WAY, 226, 1), Some(Pair { class: 1, before: limits, after: limits, grow, shrink }));
    assert_eq!(meaning.record(WAY, 2, 1), None);
    assert_eq!(meaning.action(WAY, 2, 0), Some(Action { class: 1, act: Act::Add { glyph: 226 } }));
    assert_eq!(meaning.action(WAY, 2, 1), None);
}

#[test]
fn a_table_and_its_sheet_answer_alike() {
    let bytes = complex();
    let table = Table::new(&bytes, GLYPHS).expect("an accepted table");
    has_its_parts(&table);
    let written = table.write_sheet().expect("a sheet");
    assert_eq!(Ok(written.len()), table.sheet_length());
    has_its_parts(&Sheet::new(&written).expect("an accepted sheet"));
}

#[test]
fn a_side_has_all_sections() {
    let bytes = complex();
    let written = Table::new(&bytes, GLYPHS).expect("a table").write_sheet().expect("a sheet");
    let sheet = Sheet::new(&written).expect("a sheet");
    let side = sheet.side(WAY);
    let machine = side.machine.expect("a machine");
    assert_eq!((machine.entries.len(), machine.cells.len(), machine.classes.len()), (3, 20, 1));
    assert_eq!((side.clusters.len(), side.cluster_runs.len(), side.lists.len(), side.list_runs.len()), (2, 2, 1, 1));
    assert_eq!(side.clusters[1][1].class, 1);
    assert_eq!(sheet.side(Direction::Vertical), just::Side::default());
}

#[test]
fn a_line_of_letters_takes_a_kashida() {
    let bytes = complex();
    let table = Table::new(&bytes, GLYPHS).expect("a table");
    // A letter after the start of the text gets class 1, whose pair is unlimited with priority 0. At 1 pt its sides grow by
    // 0x2500 units each; the third glyph is a space of priority 1, which gets nothing.
    let line = Line {
        direction: WAY,
        starts: true,
        ends: true,
        edition: GX_RULE,
        sizes: &[POINT; 3],
        glyphs: &[3, 4, 2],
        advances: &[0; 3],
        target: 100,
    };
    let justified = table.justify(&line).expect("a justified line");
    let first = Justified {
        classes: vec![1, 0, 0],
        before: vec![50, 0, 0],
        after: vec![50, 0, 0],
        remainder: 0,
        entries: 4,
        verdicts: vec![Verdict { place: 0, action: 0, substitutes: false }],
    };
    assert_eq!(justified, first);
    let unequal = Refusal { reason: Reason::UnequalLengths, offset: 0 };
    assert_eq!(table.justify(&Line { advances: &[0; 2], ..line }), Err(unequal));
}

#[test]
fn components_are_a_stretch_of_the_table() {
    let bytes = common::with_ligature();
    let table = Table::new(&bytes, 2).expect("a table");
    let found = table.components(WAY, 0, 0);
    assert_eq!(found, [0, 1, 0, 0]);
    assert_eq!(found.as_ptr(), bytes[bytes.len() - 4..].as_ptr());
    assert!(table.components(WAY, 1, 0).is_empty());
    let act = Act::Decompose { lower: 0, upper: 0x8000, order: 7, components: vec![1, 0] };
    assert_eq!(table.action(WAY, 0, 0), Some(Action { class: 0, act }));
}

#[test]
fn more_verdicts_than_glyphs_are_all_given() {
    let bytes = common::with_actions(3);
    let table = Table::new(&bytes, 1).expect("a table");
    let line = Line {
        direction: WAY,
        starts: true,
        ends: true,
        edition: GX_RULE,
        sizes: &[POINT],
        glyphs: &[0],
        advances: &[0],
        target: 5,
    };
    let verdicts = table.justify(&line).expect("a justified line").verdicts;
    assert_eq!(verdicts.iter().map(|verdict| verdict.action).collect::<Vec<_>>(), [0, 1, 2]);
}

#[test]
fn a_find_goes_by_halves() {
    let bytes = complex();
    let table = Table::new(&bytes, GLYPHS).expect("a table");
    let found = |lookup, glyph| table.find(WAY, lookup, glyph).expect("a find");
    // Of the two units, for glyph 2 and for glyphs 3 to 226, the lower is looked at first.
    assert_eq!(found(Lookup::Width, 2), Found { value: Some(0), looks: 1 });
    assert_eq!(found(Lookup::Width, 226), Found { value: Some(28), looks: 2 });
    assert_eq!(found(Lookup::Width, 1), Found { value: None, looks: 1 });
    assert_eq!(found(Lookup::Width, GLYPHS as u16), Found { value: None, looks: 2 });
    assert_eq!(found(Lookup::Width, DELETED), Found { value: None, looks: 0 });
    assert_eq!(found(Lookup::Action, 3), Found { value: Some(24), looks: 1 });
    assert_eq!(table.find(Direction::Vertical, Lookup::Action, 3), Ok(Found { value: None, looks: 0 }));
    assert_eq!(table.units(WAY, Lookup::Width), Ok(Units { units: 2, most: 2 }));
    assert_eq!(table.units(WAY, Lookup::Action), Ok(Units { units: 1, most: 1 }));
    assert_eq!(table.units(Direction::Vertical, Lookup::Width), Ok(Units { units: 0, most: 0 }));
}

#[test]
fn what_is_refused() {
    let bytes = simple();
    let refused = |reason, offset| Refusal { reason, offset };
    assert_eq!(Table::new(&bytes[..9], GLYPHS).unwrap_err(), refused(Reason::TableLength, 0));
    assert_eq!(Table::new(&bytes, 0).unwrap_err(), refused(Reason::GlyphCount, 0));
    // The last field, the shrink flags of the second cluster, begins at 102.
    assert_eq!(Table::new(&bytes[..103], GLYPHS).unwrap_err(), refused(Reason::Outside, 102));
    assert_eq!(Sheet::new(&[]).unwrap_err(), refused(Reason::NotSheet, 0));
}
