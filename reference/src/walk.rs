//! The class walk (document 01, the section of that name).

use crate::machine::Machine;

pub const SET_MARK: u16 = 0x8000;
pub const STAY: u16 = 0x4000;
/// The bits of the class for the marked glyph.
pub const MARK_CLASS: u16 = 0x3F80;
/// The bits of the class for the current glyph.
pub const CURRENT_CLASS: u16 = 0x007F;

const END_OF_TEXT: u8 = 0;
const END_OF_LINE: u8 = 3;

/// Walks the glyphs, given by their machine classes. Gives each glyph's
/// justification class and the count of entries taken, or `None` where the
/// walk never ends.
///
/// At one position the glyph's class is fixed, so the row alone decides what
/// comes next. Once as many entries as there are rows have all stayed, some
/// row has come up twice, and the walk goes round for good.
pub fn walk(machine: &Machine, glyph_classes: &[u8], starts: bool, ends: bool) -> Option<(Vec<u8>, u64)> {
    let end = glyph_classes.len();
    let mut classes = vec![0u8; end];
    let mut marked: Option<usize> = None;
    let mut row = if starts { 0 } else { 1 };
    let mut taken = 0;
    for place in 0..=end {
        let class = glyph_classes.get(place).copied().unwrap_or(if ends { END_OF_TEXT } else { END_OF_LINE });
        let mut stayed = 0;
        loop {
            let cell = machine.cells[row * machine.classes as usize + class as usize];
            taken += 1;
            give(&mut classes, marked, (cell.flags & MARK_CLASS) >> 7);
            if place < end {
                give(&mut classes, Some(place), cell.flags & CURRENT_CLASS);
                if cell.flags & SET_MARK != 0 {
                    marked = Some(place);
                }
            }
            row = cell.row as usize;
            if cell.flags & STAY == 0 {
                break;
            }
            stayed += 1;
            if stayed == machine.rows {
                return None;
            }
        }
    }
    Some((classes, taken))
}

/// A class of 0 gives nothing.
fn give(classes: &mut [u8], place: Option<usize>, class: u16) {
    if let (Some(place), true) = (place, class != 0) {
        classes[place] = class as u8;
    }
}
