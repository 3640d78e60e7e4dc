//! The calls that take a sheet.

use crate::{Action, Answer, Asked, Checked, Entry, Pair, Part, Sizes};

extern "C" {
    fn just_check_sheet(sheet: *const u8, length: usize) -> Checked;
    fn just_sheet_count(sheet: *const u8, length: usize) -> Answer<u32>;
    fn just_sheet_sizes(sheet: *const u8, length: usize, direction: u32) -> Part<Sizes>;
    fn just_sheet_class(sheet: *const u8, length: usize, direction: u32, glyph: u16) -> Part<u8>;
    fn just_sheet_cell(sheet: *const u8, length: usize, direction: u32, row: u16, class: u16) -> Part<Entry>;
    fn just_sheet_record(sheet: *const u8, length: usize, direction: u32, glyph: u16, class: u8) -> Part<Pair>;
    fn just_sheet_action(sheet: *const u8, length: usize, direction: u32, glyph: u16, number: u16) -> Part<Action>;
}

/// The bytes of a sheet, or any others.
#[derive(Clone, Copy, Debug)]
pub struct Sheet<'a> {
    pub bytes: &'a [u8],
}

// SAFETY: in each call pointer and length are of one slice, which is only read.
impl Sheet<'_> {
    /// Whether the bytes are a sheet, or 17.
    pub fn check(self) -> Checked {
        unsafe { just_check_sheet(self.bytes.as_ptr(), self.bytes.len()) }
    }
}

// SAFETY: as above.
impl Asked for Sheet<'_> {
    fn count(self) -> Answer<u32> {
        unsafe { just_sheet_count(self.bytes.as_ptr(), self.bytes.len()) }
    }

    fn sizes(self, direction: u32) -> Part<Sizes> {
        unsafe { just_sheet_sizes(self.bytes.as_ptr(), self.bytes.len(), direction) }
    }

    fn class(self, direction: u32, glyph: u16) -> Part<u8> {
        unsafe { just_sheet_class(self.bytes.as_ptr(), self.bytes.len(), direction, glyph) }
    }

    fn cell(self, direction: u32, row: u16, class: u16) -> Part<Entry> {
        unsafe { just_sheet_cell(self.bytes.as_ptr(), self.bytes.len(), direction, row, class) }
    }

    fn record(self, direction: u32, glyph: u16, class: u8) -> Part<Pair> {
        unsafe { just_sheet_record(self.bytes.as_ptr(), self.bytes.len(), direction, glyph, class) }
    }

    fn action(self, direction: u32, glyph: u16, number: u16) -> Part<Action> {
        unsafe { just_sheet_action(self.bytes.as_ptr(), self.bytes.len(), direction, glyph, number) }
    }
}
