//! The two example tables of source document 000, field by field, with
//! meanings, sheets and lines worked out by hand.

mod common;

use common::{line, run, Fields, TWELVE_POINTS};
use reference::examples::{complex, simple};
use reference::*;
use Direction::{Horizontal, Vertical};

fn record(limit: u32, grow_flags: u16, shrink_flags: u16) -> WidthRecord {
    WidthRecord {
        before_grow: limit,
        before_shrink: 0xB00,
        after_grow: limit,
        after_shrink: 0xB00,
        grow_flags,
        shrink_flags,
    }
}

#[test]
fn lengths_are_the_documents() {
    assert_eq!(simple().len(), 104);
    assert_eq!(complex().len(), 444);
}

#[test]
fn simple_parts() {
    let bytes = simple();
    let table = read_table(&bytes, 276).unwrap();
    assert_eq!(table.glyph_count(), 276);
    assert_eq!(table.sizes(Horizontal), None);
    assert_eq!(table.glyph_class(Horizontal, 3), None);
    assert_eq!(table.cell(Horizontal, 0, 0), None);
    assert_eq!(table.width_record(Horizontal, 1, 0), None);
    assert_eq!(table.width_record(Horizontal, 2, 0), Some(record(0x8000, 1, 1)));
    assert_eq!(table.width_record(Horizontal, 2, 1), None);
    assert_eq!(table.width_record(Horizontal, 3, 0), Some(record(0x2500, 2, 2)));
    assert_eq!(table.width_record(Horizontal, 275, 0), Some(record(0x2500, 2, 2)));
    assert_eq!(table.width_record(Horizontal, 276, 0), None);
    assert_eq!(table.width_record(Horizontal, 0xFFFF, 0), None);
    assert_eq!(table.width_record(Vertical, 2, 0), None);
    assert_eq!(table.action(Horizontal, 2, 0), None);
}

#[test]
fn simple_sheet() {
    let pair =
        |limit: u32, flags: u16| Fields::new().l(1).l(0).ls(&[limit, 0xB00, limit, 0xB00]).w(flags).w(flags).done();
    let horizontal = Fields::new().ls(&[0, 0, 0, 0]);
    let horizontal = horizontal.l(2).bs(&pair(0x8000, 1)).bs(&pair(0x2500, 2));
    let horizontal = horizontal.l(2).ws(&[2, 2, 0]).ws(&[3, 275, 1]).ls(&[0, 0]).done();
    let sheet = Fields::new().l(276).bs(&horizontal).ls(&[0; 8]).done();
    assert_eq!(sheet.len(), 136);
    assert_eq!(write_sheet(&simple(), 276).unwrap(), sheet);
    assert_eq!(sheet_length(&simple(), 276), Ok(136));
    assert!(check_sheet(&sheet));
}

#[test]
fn simple_with_fewer_glyphs() {
    let bytes = simple();
    let table = read_table(&bytes, 3).unwrap();
    assert_eq!(table.width_record(Horizontal, 2, 0), Some(record(0x8000, 1, 1)));
    assert_eq!(table.width_record(Horizontal, 3, 0), None);
    let pair = Fields::new().l(1).l(0).ls(&[0x8000, 0xB00, 0x8000, 0xB00]).ws(&[1, 1]).done();
    let sheet = Fields::new().l(3).ls(&[0; 4]).l(1).bs(&pair).l(1).ws(&[2, 2, 0]).ls(&[0; 10]).done();
    assert_eq!(write_sheet(&bytes, 3).unwrap(), sheet);
}

#[test]
fn complex_parts() {
    let bytes = complex();
    let table = read_table(&bytes, 227).unwrap();
    assert_eq!(table.sizes(Horizontal), Some(Sizes { rows: 4, classes: 5 }));
    assert_eq!(table.glyph_class(Horizontal, 2), Some(1));
    assert_eq!(table.glyph_class(Horizontal, 3), Some(4));
    assert_eq!(table.glyph_class(Horizontal, 225), Some(4));
    assert_eq!(table.glyph_class(Horizontal, 226), Some(1));
    assert_eq!(table.glyph_class(Horizontal, 227), None);
    assert_eq!(table.cell(Horizontal, 0, 4), Some(Cell { row: 2, flags: 1 }));
    assert_eq!(table.cell(Horizontal, 2, 4), Some(Cell { row: 2, flags: 0 }));
    assert_eq!(table.cell(Horizontal, 3, 1), Some(Cell { row: 3, flags: 0 }));
    assert_eq!(table.cell(Horizontal, 4, 0), None);
    assert_eq!(table.cell(Horizontal, 0, 5), None);
    assert_eq!(table.width_record(Horizontal, 3, 1), Some(record(0x2500, 0x1000, 2)));
    let kashida = Action { class: 1, kind: 1, data: vec![0, 226] };
    assert_eq!(table.action(Horizontal, 2, 0), Some(kashida.clone()));
    assert_eq!(table.action(Horizontal, 226, 0), Some(kashida));
    assert_eq!(table.action(Horizontal, 226, 1), None);
    assert_eq!(table.action(Horizontal, 1, 0), None);
    assert_eq!(component_list(&bytes, 227, Horizontal, 2, 0), Stretch::default());
}

#[test]
fn complex_needs_its_kashida() {
    // With 226 glyphs the added glyph, 226, is not below N. Its field is at 164.
    assert_eq!(check_table(&complex(), 226), Err(Fault { number: 8, at: 164 }));
    assert_eq!(check_table(&complex(), 227), Ok(()));
}

#[test]
fn complex_sheet() {
    let pair = |class: u32, limit: u32, grow: u16, shrink: u16| {
        Fields::new().l(class).ls(&[limit, 0xB00, limit, 0xB00]).w(grow).w(shrink).done()
    };
    let machine = Fields::new().l(1).ls(&[4, 5]).l(1).ws(&[3, 225, 4]);
    let machine = machine.l(3).ws(&[2, 0]).ws(&[3, 0]).ws(&[2, 1]);
    let machine = machine.l(20).bs(&[0, 1, 0, 0, 2]).bs(&[0, 1, 0, 0, 2]).bs(&[0, 1, 0, 0, 0]).bs(&[0, 1, 0, 0, 2]);
    let widths = machine.l(2).l(1).bs(&pair(0, 0x8000, 1, 1));
    let widths = widths.l(2).bs(&pair(0, 0x2500, 2, 2)).bs(&pair(1, 0x2500, 0x1000, 2));
    let widths = widths.l(2).ws(&[2, 2, 0]).ws(&[3, 226, 1]);
    let horizontal = widths.l(1).l(1).ws(&[1, 1]).l(2).w(226).l(1).ws(&[2, 226, 0]).done();
    let sheet = Fields::new().l(227).bs(&horizontal).ls(&[0; 8]).done();
    assert_eq!(write_sheet(&complex(), 227).unwrap(), sheet);
    let meaning = read_sheet(&sheet).unwrap();
    assert_eq!(meaning.action(Horizontal, 2, 0), Some(Action { class: 1, kind: 1, data: vec![0, 226] }));
}

#[test]
fn complex_line_grows() {
    // Two words, 3 4 and 5: the first glyph of each is class 1, and both are
    // unlimited in stage 0. 0x2500 at 12 pt is 113,664 a side.
    let (table, glyphs, advances) = (complex(), [3, 4, 2, 5], [10, 20, 30, 40]);
    let factor = 113_664;
    let target = 100 + 4 * factor + 7;
    let answer = run(&table, 227, line(&glyphs, &advances, target, TWELVE_POINTS), 2).unwrap();
    assert_eq!(answer.classes, [1, 0, 0, 1]);
    assert_eq!(answer.entries, 5);
    assert_eq!(answer.before, [factor, 0, 0, factor]);
    assert_eq!(answer.after, [factor + 3, 0, 0, factor + 4]);
    assert_eq!(answer.remainder, 0);
    let at = |place| VerdictRecord { place, number: 0, substituting: false };
    assert_eq!(answer.verdicts, [at(0), at(3)]);
    assert_eq!(run(&table, 227, line(&glyphs, &advances, target, TWELVE_POINTS), 1), Err(16));
}

#[test]
fn complex_line_shrinks() {
    // Shrinking, all letters are stage 2, and the space is alone in stage 1.
    let (table, glyphs, advances) = (complex(), [3, 4, 2, 5], [1000, 1000, 1000, 1000]);
    let answer = run(&table, 227, line(&glyphs, &advances, 3_000, TWELVE_POINTS), 0).unwrap();
    assert_eq!(answer.before, [0, 0, -500, 0]);
    assert_eq!(answer.after, [0, 0, -500, 0]);
    assert_eq!(answer.remainder, 0);
    assert_eq!(answer.verdicts, []);
}
