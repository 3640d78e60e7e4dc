//! Small tables, put together field by field, and lines.

use reference::examples::Fields;
use reference::generate::LineCase;
use reference::{cluster, one_size, Direction, WidthRecord};

/// The smallest table: both directions absent.
pub fn empty() -> Vec<u8> {
    Fields::new().l(0x0001_0000).ws(&[0, 0, 0]).done()
}

/// A table with a horizontal direction: glyph k has `records[k]` for class 0, and each of these glyphs has the action list.
/// An empty list or machine is none.
pub fn table(records: &[WidthRecord], list: &[u8], machine: &[u8]) -> Vec<u8> {
    let count = records.len() as u16;
    let clusters = 22 + 2 * count;
    let actions = clusters + 28 * count;
    let lists = 6 + 2 * count;
    let machine_at = if list.is_empty() { actions } else { actions + lists + list.len() as u16 };
    let given = |at: u16, part: &[u8]| if part.is_empty() { 0 } else { at };
    let head = Fields::new().l(0x0001_0000).ws(&[0, 10, 0]);
    let head = head.ws(&[given(machine_at, machine), clusters, given(actions, list)]).ws(&[8, 0, count]);
    let mut fields = (0..count).fold(head, |fields, glyph| fields.w(28 * glyph));
    for record in records {
        fields = fields.l(1).l(0);
        cluster::write_record(record, &mut fields.0);
    }
    if !list.is_empty() {
        fields = (0..count).fold(fields.ws(&[8, 0, count]), |fields, _| fields.w(lists)).bs(list);
    }
    fields.bs(machine).done()
}

/// A machine of four classes, in which every glyph that is not deleted is class 1; entries lead to rows by number.
pub fn machine(rows: &[[u8; 4]], entries: &[(u16, u16)]) -> Vec<u8> {
    let entries_at = 12 + 4 * rows.len() as u16;
    let head = Fields::new().to(8).w(4).ws(&[8, 12, entries_at]).ws(&[0, 0]).bs(&rows.concat());
    entries.iter().fold(head, |fields, &(row, flags)| fields.w(12 + 4 * row).w(flags)).done()
}

/// A record that grows by these limits and does not shrink.
pub fn grows(before: u32, after: u32, flags: u16) -> WidthRecord {
    WidthRecord {
        before_grow: before,
        before_shrink: 0,
        after_grow: after,
        after_shrink: 0,
        grow_flags: flags,
        shrink_flags: 0,
    }
}

/// A horizontal line at 1 pt that starts and ends the text, by the first edition, of advances and target 0, with buffers of the right length and
/// no room for verdicts.
pub fn line(table: Vec<u8>, n: u32, glyphs: Vec<u16>) -> LineCase {
    let count = glyphs.len();
    LineCase {
        table,
        n,
        direction: Direction::Horizontal,
        starts: true,
        ends: true,
        edition: 1,
        sizes: one_size(65_536, count),
        glyphs,
        advances: vec![0; count],
        target: 0,
        classes_len: count,
        before_len: count,
        after_len: count,
        room: 0,
    }
}
