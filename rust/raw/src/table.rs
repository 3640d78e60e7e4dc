//! The calls that take a table, but for the one that justifies a line.

use crate::{Action, Answer, Asked, Checked, Entry, Pair, Part, Sizes, Stretch, Units, Value};

// `n` is the glyph count, `way` the direction.
extern "C" {
    fn just_check_table(table: *const u8, length: usize, n: u32) -> Checked;
    fn just_table_count(table: *const u8, length: usize, n: u32) -> Answer<u32>;
    fn just_table_sizes(table: *const u8, length: usize, n: u32, way: u32) -> Part<Sizes>;
    fn just_table_class(table: *const u8, length: usize, n: u32, way: u32, glyph: u16) -> Part<u8>;
    fn just_table_cell(table: *const u8, length: usize, n: u32, way: u32, row: u16, class: u16) -> Part<Entry>;
    fn just_table_record(table: *const u8, length: usize, n: u32, way: u32, glyph: u16, class: u8) -> Part<Pair>;
    fn just_table_action(table: *const u8, length: usize, n: u32, way: u32, glyph: u16, number: u16) -> Part<Action>;
    fn just_table_value(table: *const u8, length: usize, n: u32, way: u32, lookup: u32, glyph: u16) -> Answer<Value>;
    fn just_table_units(table: *const u8, length: usize, n: u32, way: u32, lookup: u32) -> Answer<Units>;
    fn just_table_components(table: *const u8, length: usize, n: u32, way: u32, glyph: u16, number: u16) -> Stretch;
    fn just_table_sheet_length(table: *const u8, length: usize, n: u32) -> Answer<u32>;
    fn just_table_write_sheet(
        table: *const u8,
        length: usize,
        n: u32,
        room: *mut u8,
        room_length: usize,
    ) -> Answer<u32>;
}

/// A table, and the glyph count that it is read with.
#[derive(Clone, Copy, Debug)]
pub struct Table<'a> {
    pub bytes: &'a [u8],
    pub glyph_count: u32,
}

// SAFETY: in each call pointer and length are of one slice, which is only read; the writer's room is lent to be written.
impl Table<'_> {
    /// Whether the table is accepted, or the number and the offset of its first fault.
    pub fn check(self) -> Checked {
        let (table, length, n) = self.lent();
        unsafe { just_check_table(table, length, n) }
    }

    /// The value of a glyph in a lookup, and how many units a find of it looks at. A lookup is 0 for the width lookup and
    /// any other number for the action lookup.
    pub fn value(self, direction: u32, lookup: u32, glyph: u16) -> Answer<Value> {
        let (table, length, n) = self.lent();
        unsafe { just_table_value(table, length, n, direction, lookup, glyph) }
    }

    /// How many units a lookup has for a find, and the bound on its looks.
    pub fn units(self, direction: u32, lookup: u32) -> Answer<Units> {
        let (table, length, n) = self.lent();
        unsafe { just_table_units(table, length, n, direction, lookup) }
    }

    /// Where the component list of a type 0 action stands in the table; length 0 where there is none. Never refuses.
    pub fn components(self, direction: u32, glyph: u16, number: u16) -> Stretch {
        let (table, length, n) = self.lent();
        unsafe { just_table_components(table, length, n, direction, glyph, number) }
    }

    /// The length of the table's sheet.
    pub fn sheet_length(self) -> Answer<u32> {
        let (table, length, n) = self.lent();
        unsafe { just_table_sheet_length(table, length, n) }
    }

    /// Writes the table's sheet into the first bytes of the room and answers their count.
    pub fn write_sheet(self, room: &mut [u8]) -> Answer<u32> {
        let (table, length, n) = self.lent();
        unsafe { just_table_write_sheet(table, length, n, room.as_mut_ptr(), room.len()) }
    }

    /// Pointer, length and glyph count, as every call takes a table.
    pub(crate) fn lent(self) -> (*const u8, usize, u32) {
        (self.bytes.as_ptr(), self.bytes.len(), self.glyph_count)
    }
}

// SAFETY: as above.
impl Asked for Table<'_> {
    fn count(self) -> Answer<u32> {
        let (table, length, n) = self.lent();
        unsafe { just_table_count(table, length, n) }
    }

    fn sizes(self, direction: u32) -> Part<Sizes> {
        let (table, length, n) = self.lent();
        unsafe { just_table_sizes(table, length, n, direction) }
    }

    fn class(self, direction: u32, glyph: u16) -> Part<u8> {
        let (table, length, n) = self.lent();
        unsafe { just_table_class(table, length, n, direction, glyph) }
    }

    fn cell(self, direction: u32, row: u16, class: u16) -> Part<Entry> {
        let (table, length, n) = self.lent();
        unsafe { just_table_cell(table, length, n, direction, row, class) }
    }

    fn record(self, direction: u32, glyph: u16, class: u8) -> Part<Pair> {
        let (table, length, n) = self.lent();
        unsafe { just_table_record(table, length, n, direction, glyph, class) }
    }

    fn action(self, direction: u32, glyph: u16, number: u16) -> Part<Action> {
        let (table, length, n) = self.lent();
        unsafe { just_table_action(table, length, n, direction, glyph, number) }
    }
}
