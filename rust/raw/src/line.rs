//! The call that justifies a line.

use crate::{Answer, Table};

extern "C" {
    fn just_justify(
        table: *const u8,
        length: usize,
        glyph_count: u32,
        direction: u32,
        starts: bool,
        ends: bool,
        edition: u32,
        sizes: *const u32,
        sizes_length: usize,
        glyphs: *const u16,
        glyphs_length: usize,
        advances: *const i32,
        advances_length: usize,
        target: i32,
        classes: *mut u8,
        classes_length: usize,
        before: *mut i32,
        before_length: usize,
        after: *mut i32,
        after_length: usize,
        verdicts: *mut Verdict,
        verdicts_length: usize,
    ) -> Answer<Said>;
}

/// Edition 1 of the rule: what is left after the last stage goes back to the first stage that has limits above 0, whose
/// glyphs then pass them.
pub const GX_RULE: u32 = 1;

/// Edition 2: what is left after the last stage is the remainder.
pub const WITHIN_LIMITS: u32 = 2;

/// A line. Sizes, advances and target are in units.
#[derive(Clone, Copy, Debug)]
pub struct Line<'a> {
    /// 0 for horizontal, any other number for vertical.
    pub direction: u32,
    pub starts: bool,
    pub ends: bool,
    /// [`GX_RULE`] or [`WITHIN_LIMITS`].
    pub edition: u32,
    pub sizes: &'a [u32],
    pub glyphs: &'a [u16],
    pub advances: &'a [i32],
    pub target: i32,
}

/// What a line's call fills. All but the verdicts have the length of the line.
#[derive(Debug)]
pub struct Lent<'a> {
    pub classes: &'a mut [u8],
    pub before: &'a mut [i32],
    pub after: &'a mut [i32],
    pub verdicts: &'a mut [Verdict],
}

/// An action that fires. There is no padding: what a call stores is all of the record.
#[derive(Clone, Copy, Debug, Default, PartialEq, Eq, Hash)]
#[repr(C)]
pub struct Verdict {
    /// The glyph's place in the line, from 0.
    pub place: u16,
    /// The action's number in the glyph's list, from 0.
    pub action: u16,
    /// 1 where it substitutes, else 0.
    pub substitutes: u16,
}

/// What is said of a line whose buffers were filled.
#[derive(Clone, Copy, Debug, Default, PartialEq, Eq)]
#[repr(C)]
pub struct Said {
    /// What is left of the gap.
    pub remainder: i32,
    /// How many entries the class walk took; 0 without a machine.
    pub entries: u32,
    /// How many verdicts were stored.
    pub verdicts: u32,
}

impl Table<'_> {
    /// Justifies a line into lent buffers. A refusal changes none of them.
    pub fn justify(self, line: &Line, lent: Lent) -> Answer<Said> {
        let (table, length, glyph_count) = self.lent();
        // SAFETY: each pointer and length are of one slice; what is written is lent to be written, and so overlaps nothing
        // else; what the library stores are numbers, valid in each place.
        unsafe {
            just_justify(
                table,
                length,
                glyph_count,
                line.direction,
                line.starts,
                line.ends,
                line.edition,
                line.sizes.as_ptr(),
                line.sizes.len(),
                line.glyphs.as_ptr(),
                line.glyphs.len(),
                line.advances.as_ptr(),
                line.advances.len(),
                line.target,
                lent.classes.as_mut_ptr(),
                lent.classes.len(),
                lent.before.as_mut_ptr(),
                lent.before.len(),
                lent.after.as_mut_ptr(),
                lent.after.len(),
                lent.verdicts.as_mut_ptr(),
                lent.verdicts.len(),
            )
        }
    }
}
