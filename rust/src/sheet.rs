//! Sheets.

use crate::parts::{Accepted, Direction};
use crate::refusal::Refusal;
use crate::sections::{self, Side};
use just_raw::{self as raw, Asked};

/// Bytes that were accepted as a sheet. It holds the lent bytes.
///
/// Two tables mean the same exactly when their sheets are equal byte for byte.
///
/// ```
/// use just::{Meaning, Reason, Refusal, Sheet, Table};
///
/// let bytes = [0, 1, 0, 0, 0, 0, 0, 0, 0, 0];
/// let written = Table::new(&bytes, 9)?.write_sheet()?;
/// assert_eq!(Sheet::new(&written)?.glyph_count(), 9);
/// assert_eq!(Sheet::new(&written[1..]).unwrap_err().reason, Reason::NotSheet);
/// # Ok::<(), Refusal>(())
/// ```
#[derive(Clone, Copy, Debug)]
pub struct Sheet<'a> {
    lent: raw::Sheet<'a>,
    glyph_count: u32,
}

impl<'a> Sheet<'a> {
    /// Judges some bytes.
    pub fn new(bytes: &'a [u8]) -> Result<Sheet<'a>, Refusal> {
        let lent = raw::Sheet { bytes };
        let glyph_count = Refusal::or(lent.count())?;
        Ok(Sheet { lent, glyph_count })
    }

    /// The lent bytes.
    pub fn bytes(&self) -> &'a [u8] {
        self.lent.bytes
    }

    /// All that the sheet says of a direction.
    pub fn side(&self, direction: Direction) -> Side {
        sections::read(self.lent.bytes, direction)
    }
}

impl Accepted for Sheet<'_> {
    fn count(&self) -> u32 {
        self.glyph_count
    }

    fn asked(&self) -> impl Asked {
        self.lent
    }
}
