//! The class machine (document 01, "The table", the passage on the machine).

use crate::bytes::{judge, Bytes, Fault, MACHINE};
use crate::meaning::{Cell, Sizes};

/// The header that is not read.
const HEADER: u64 = 8;
/// The class of glyphs that the class table does not name.
pub const OTHER_CLASS: u8 = 1;
/// The class of deleted glyphs.
pub const DELETED_CLASS: u8 = 2;
pub const LEAST_CLASSES: u32 = 4;
pub const MOST_CLASSES: u32 = 255;
pub const LEAST_ROWS: u32 = 2;
pub const MOST_ROWS: u32 = 256;

/// The rows of a machine: `rows` times `classes` cells, row by row.
#[derive(Clone, Debug, PartialEq, Eq)]
pub struct Machine {
    pub rows: u32,
    pub classes: u32,
    pub cells: Vec<Cell>,
}

impl Machine {
    pub fn sizes(&self) -> Sizes {
        Sizes { rows: self.rows, classes: self.classes }
    }

    pub fn cell(&self, row: u32, class: u32) -> Option<Cell> {
        if row < self.rows && class < self.classes {
            Some(self.cells[(row * self.classes + class) as usize])
        } else {
            None
        }
    }
}

/// The class bytes that matter: those of glyphs below N.
#[derive(Clone, Copy, Debug)]
pub struct GlyphClasses<'a> {
    pub first: u32,
    pub bytes: &'a [u8],
}

impl GlyphClasses<'_> {
    /// The class of a glyph below N.
    pub fn of(&self, glyph: u32) -> u8 {
        match glyph.checked_sub(self.first) {
            Some(index) => self.bytes.get(index as usize).copied().unwrap_or(OTHER_CLASS),
            None => OTHER_CLASS,
        }
    }
}

/// The four fields after the header that is not read.
struct Layout {
    here: u64,
    classes: u32,
    class_table: u64,
    state_array: u64,
    entry_table: u64,
}

/// Finds and judges the machine at `at`: fields, glyph classes, rows.
pub fn read<'a>(bytes: Bytes<'a>, at: u64, n: u32) -> Result<(Machine, GlyphClasses<'a>), Fault> {
    let layout = read_layout(bytes, at + HEADER)?;
    let glyphs = read_classes(bytes, &layout, n)?;
    let machine = read_rows(bytes, &layout)?;
    Ok((machine, glyphs))
}

fn read_layout(bytes: Bytes, here: u64) -> Result<Layout, Fault> {
    let classes = bytes.u16(here)? as u32;
    judge((LEAST_CLASSES..=MOST_CLASSES).contains(&classes), MACHINE, here)?;
    Ok(Layout {
        here,
        classes,
        class_table: here + bytes.u16(here + 2)? as u64,
        state_array: bytes.u16(here + 4)? as u64,
        entry_table: here + bytes.u16(here + 6)? as u64,
    })
}

/// Class bytes are read upward and only for glyphs below N.
fn read_classes<'a>(bytes: Bytes<'a>, layout: &Layout, n: u32) -> Result<GlyphClasses<'a>, Fault> {
    let first = bytes.u16(layout.class_table)? as u32;
    let count = bytes.u16(layout.class_table + 2)? as u32;
    let start = layout.class_table + 4;
    let used = (first + count).min(n).saturating_sub(first) as u64;
    for at in start..start + used {
        judge((bytes.u8(at)? as u32) < layout.classes, MACHINE, at)?;
    }
    let stretch = if used == 0 { &[] } else { bytes.known(start, used) };
    Ok(GlyphClasses { first, bytes: stretch })
}

/// Rows upward, cell by cell, as long as a row read so far leads to one that
/// is not yet read; two rows at least.
fn read_rows(bytes: Bytes, layout: &Layout) -> Result<Machine, Fault> {
    let mut cells = Vec::new();
    let mut rows = LEAST_ROWS;
    let mut row = 0;
    while row < rows {
        for class in 0..layout.classes {
            let at = layout.here + layout.state_array + (row * layout.classes + class) as u64;
            let number = bytes.u8(at)? as u64;
            let cell = read_entry(bytes, layout, layout.entry_table + 4 * number)?;
            rows = rows.max(cell.row as u32 + 1);
            cells.push(cell);
        }
        row += 1;
    }
    Ok(Machine { rows, classes: layout.classes, cells })
}

/// An entry: the new row must not lie before the state array, must be a whole
/// number of rows past it, and its number must be below 256.
fn read_entry(bytes: Bytes, layout: &Layout, at: u64) -> Result<Cell, Fault> {
    let past = (bytes.u16(at)? as u64).checked_sub(layout.state_array);
    let row = past
        .filter(|past| past % layout.classes as u64 == 0)
        .map(|past| past / layout.classes as u64)
        .filter(|&row| row < MOST_ROWS as u64);
    let row = row.ok_or(Fault::new(MACHINE, at))? as u16;
    Ok(Cell { row, flags: bytes.u16(at + 2)? })
}
