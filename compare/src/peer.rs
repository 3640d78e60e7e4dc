//! The peer: the program in C of the folder `peer`, tuned by hand, through its two calls. They take and answer what the
//! library's calls do.

use crate::Outcome;
use just_raw::{Answer, Checked, Lent, Line, Said, Table, Verdict};

extern "C" {
    fn peer_check_table(table: *const u8, length: usize, glyph_count: u32) -> Checked;
    fn peer_justify(
        table: *const u8,
        length: usize,
        glyph_count: u32,
        direction: u32,
        starts: bool,
        ends: bool,
        edition: u32,
        sizes: *const u32,
        sizes_length: usize,
        glyphs: *const u16,
        glyphs_length: usize,
        advances: *const i32,
        advances_length: usize,
        target: i32,
        classes: *mut u8,
        classes_length: usize,
        before: *mut i32,
        before_length: usize,
        after: *mut i32,
        after_length: usize,
        verdicts: *mut Verdict,
        verdicts_length: usize,
    ) -> Answer<Said>;
}

/// What a comparison finds with the peer in the library's place.
pub fn in_place(found: Outcome) -> Outcome {
    found.map_err(|difference| format!("with the peer in the library's place, {difference}"))
}

/// Whether a table is accepted, or the number and the offset of its first fault.
pub fn check(table: Table) -> Checked {
    // SAFETY: pointer and length are of one slice, which is only read.
    unsafe { peer_check_table(table.bytes.as_ptr(), table.bytes.len(), table.glyph_count) }
}

/// Justifies a line into lent buffers.
pub fn justify(table: Table, line: &Line, lent: Lent) -> Answer<Said> {
    // SAFETY: each pointer and length are of one slice; what is written is lent to be written, and so overlaps nothing else;
    // what is stored are numbers, valid in each place.
    unsafe {
        peer_justify(
            table.bytes.as_ptr(),
            table.bytes.len(),
            table.glyph_count,
            line.direction,
            line.starts,
            line.ends,
            line.edition,
            line.sizes.as_ptr(),
            line.sizes.len(),
            line.glyphs.as_ptr(),
            line.glyphs.len(),
            line.advances.as_ptr(),
            line.advances.len(),
            line.target,
            lent.classes.as_mut_ptr(),
            lent.classes.len(),
            lent.before.as_mut_ptr(),
            lent.before.len(),
            lent.after.as_mut_ptr(),
            lent.after.len(),
            lent.verdicts.as_mut_ptr(),
            lent.verdicts.len(),
        )
    }
}
