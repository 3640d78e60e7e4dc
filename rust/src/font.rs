//! Whole fonts.

use crate::directory;
use crate::field::Field;
use crate::refusal::{Reason, Refusal};
use crate::table::Table;
use just_raw as raw;
use std::fmt;

/// A font whose 'just' table was accepted with the glyph count of its 'maxp' table. It holds the lent bytes.
///
/// ```
/// use just::{Font, Meaning};
///
/// // A font of two tables: 'just', a bare header, at 44, and 'maxp', for 3 glyphs, at 56.
/// let bytes = [
///     &[0, 1, 0, 0, 0, 2, 0, 32, 0, 1, 0, 0][..], // version, table count, search fields
///     b"just", &[0, 1, 0, 0, 0, 0, 0, 44, 0, 0, 0, 10], // checksum, offset, length
///     b"maxp", &[0, 3, 0x50, 0, 0, 0, 0, 56, 0, 0, 0, 6],
///     &[0, 1, 0, 0, 0, 0, 0, 0, 0, 0], &[0, 0],
///     &[0, 0, 0x50, 0, 0, 3],
/// ].concat();
/// let font = Font::open(&bytes)?;
/// assert_eq!(font.table_offset(), 44);
/// assert_eq!(font.table().glyph_count(), 3);
/// assert_eq!(font.table().bytes(), &bytes[44..54]);
/// assert_eq!(Font::open(&bytes[..61]).unwrap_err().number(), 21);
/// # Ok::<(), just::Refusal>(())
/// ```
#[derive(Clone, Copy, Debug)]
pub struct Font<'a> {
    table: Table<'a>,
    table_offset: usize,
}

impl<'a> Font<'a> {
    /// Finds the 'just' table of a whole font and judges it. The offset of a refusal 4 to 8 counts from the start of 'just'.
    pub fn open(bytes: &'a [u8]) -> Result<Font<'a>, Refusal> {
        let raw::Opened { table_offset, table_length, glyph_count } = Refusal::or(raw::Font { bytes }.open())?;
        let table_offset = table_offset as usize;
        let table = &bytes[table_offset..][..table_length as usize];
        Ok(Font { table: Table { lent: raw::Table { bytes: table, glyph_count } }, table_offset })
    }

    /// The 'just' table, which is read with the font's glyph count.
    pub fn table(&self) -> Table<'a> {
        self.table
    }

    /// At which byte of the font the 'just' table begins.
    pub fn table_offset(&self) -> usize {
        self.table_offset
    }
}

/// What of a font a refusal speaks of.
#[derive(Clone, Copy, Debug, PartialEq, Eq, Hash)]
pub enum FontPlace {
    Directory,
    Just,
    Maxp,
    /// A field of the 'just' table.
    Field(Field),
}

impl FontPlace {
    /// What a refusal of this font speaks of; `None` for refusals other than 4 to 8 and 21 to 23, and for one that is not this
    /// font's.
    ///
    /// ```
    /// use just::{Font, FontPlace};
    ///
    /// let refusal = Font::open(&[]).unwrap_err();
    /// assert_eq!(FontPlace::of(&[], refusal), Some(FontPlace::Directory));
    /// ```
    pub fn of(font: &[u8], refusal: Refusal) -> Option<FontPlace> {
        match directory::tables(font) {
            Ok((just, glyph_count)) => Field::of(just, glyph_count, refusal).map(FontPlace::Field),
            Err((reason, place)) => (refusal == Refusal { reason, offset: 0 }).then_some(place),
        }
    }
}

impl fmt::Display for FontPlace {
    fn fmt(&self, out: &mut fmt::Formatter) -> fmt::Result {
        match self {
            FontPlace::Directory => out.write_str("the directory"),
            FontPlace::Just => out.write_str("'just'"),
            FontPlace::Maxp => out.write_str("'maxp'"),
            FontPlace::Field(field) => field.fmt(out),
        }
    }
}

impl Reason {
    /// Whether it is a fault of a font around its 'just' table: 21 to 23.
    pub fn is_of_font(self) -> bool {
        matches!(self, Reason::FontEnds | Reason::MissingTable | Reason::WrongSum)
    }
}
