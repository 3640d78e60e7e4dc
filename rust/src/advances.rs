//! The advances of a font's glyphs. The library is handed advances; here they are read from a whole font.

use crate::directory;
use crate::line::DELETED;
use crate::parts::word;
use std::fmt;

/// Where 'head' has the units per em, and 'hhea' the number of advances that 'hmtx' begins with; each is of 16 bits.
const EM_AT: usize = 18;
const COUNT_AT: usize = 34;

/// An advance in 'hmtx' and the side bearing after it.
const METRIC: usize = 4;

/// The horizontal advances of a font: 'hmtx', with 'hhea' for their number and 'head' for the units per em.
#[derive(Clone, Copy, Debug)]
pub struct Advances<'a> {
    units_per_em: u16,
    /// At least one.
    metrics: &'a [u8],
}

/// Why a font has no advances; a table by its tag.
#[derive(Clone, Copy, Debug, PartialEq, Eq, Hash)]
pub enum NoAdvances {
    /// The directory is not wholly in the file.
    Directory,
    /// There is no such table.
    Missing(&'static str),
    /// A table is not wholly in the file, or too short for what is read from it.
    Short(&'static str),
    /// 'head' has 0 units per em.
    NoEm,
    /// 'hhea' says that 'hmtx' has no advance.
    NoMetrics,
}

impl<'a> Advances<'a> {
    /// The advances of a whole font. Of its tables, here only those three are looked at, and no checksum.
    pub fn of(font: &'a [u8]) -> Result<Advances<'a>, NoAdvances> {
        let units_per_em = word(table(font, "head", EM_AT + 2)?, EM_AT);
        let count = usize::from(word(table(font, "hhea", COUNT_AT + 2)?, COUNT_AT));
        let metrics = &table(font, "hmtx", METRIC * count)?[..METRIC * count];
        match (units_per_em, count) {
            (0, _) => Err(NoAdvances::NoEm),
            (_, 0) => Err(NoAdvances::NoMetrics),
            _ => Ok(Advances { units_per_em, metrics }),
        }
    }

    /// The advance of a glyph in units (1/65,536 point) at a size in units, rounded down. Glyphs past the last one that has an
    /// advance of its own have that one's, a deleted glyph has none; what is too great for any line is the greatest `i32`.
    pub fn at_size(&self, glyph: u16, size: u32) -> i32 {
        if glyph == DELETED {
            return 0;
        }
        let last = self.metrics.len() / METRIC - 1;
        let advance = word(self.metrics, METRIC * last.min(glyph.into()));
        let units = u64::from(advance) * u64::from(size) / u64::from(self.units_per_em);
        i32::try_from(units).unwrap_or(i32::MAX)
    }
}

/// The first table of a tag, at least so many bytes long.
fn table<'a>(font: &'a [u8], tag: &'static str, least: usize) -> Result<&'a [u8], NoAdvances> {
    let records = directory::records(font).ok_or(NoAdvances::Directory)?;
    let record = directory::first(records, tag.as_bytes()).ok_or(NoAdvances::Missing(tag))?;
    directory::stretch(font, record).filter(|table| table.len() >= least).ok_or(NoAdvances::Short(tag))
}

impl fmt::Display for NoAdvances {
    fn fmt(&self, out: &mut fmt::Formatter) -> fmt::Result {
        match self {
            NoAdvances::Directory => out.write_str("no advances: the font's directory is not wholly in the file"),
            NoAdvances::Missing(tag) => write!(out, "no advances: the font has no '{tag}' table"),
            NoAdvances::Short(tag) => write!(out, "no advances: '{tag}' is too short or not wholly in the file"),
            NoAdvances::NoEm => out.write_str("no advances: 'head' has 0 units per em"),
            NoAdvances::NoMetrics => out.write_str("no advances: 'hhea' says that 'hmtx' has none"),
        }
    }
}

impl std::error::Error for NoAdvances {}
