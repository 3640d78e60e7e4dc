//! The call that takes a whole font.

use crate::{Answer, Opened};

extern "C" {
    fn just_open_font(font: *const u8, length: usize) -> Answer<Opened>;
}

/// A whole font.
#[derive(Clone, Copy, Debug)]
pub struct Font<'a> {
    pub bytes: &'a [u8],
}

impl Font<'_> {
    /// Where the font's 'just' table is, where it is accepted with the glyph count of 'maxp'.
    pub fn open(self) -> Answer<Opened> {
        // SAFETY: pointer and length are of one slice, which is only read.
        unsafe { just_open_font(self.bytes.as_ptr(), self.bytes.len()) }
    }
}
