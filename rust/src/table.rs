//! Tables.

use crate::parts::{Accepted, Direction};
use crate::refusal::Refusal;
use just_raw::{self as raw, Asked};

pub use raw::{Lookup, Units};

/// What a find in a lookup gives: the glyph's value, if it has one, and how many of the lookup's units were looked at.
#[derive(Clone, Copy, Debug, PartialEq, Eq, Hash)]
pub struct Found {
    pub value: Option<u16>,
    pub looks: u32,
}

/// A table that was accepted with a glyph count. It holds the lent bytes.
///
/// ```
/// use just::{Direction, Meaning, Table};
///
/// // One glyph, which grows by up to half an em before it, in stage 1.
/// let bytes = [
///     0, 1, 0, 0, 0, 0, 0, 10, 0, 0, // version, format, horizontal at 10, no vertical
///     0, 0, 0, 24, 0, 0, // no machine, clusters at 24, no actions
///     0, 8, 0, 0, 0, 1, 0, 0, // a lookup of format 8: glyph 0 has the first cluster
///     0, 0, 0, 1, 0, 0, 0, 0, // one pair, for class 0
///     0, 0, 0x80, 0, 0, 0, 0, 0, // before: grow, shrink
///     0, 0, 0, 0, 0, 0, 0, 0, // after
///     0, 1, 0, 0, // flags
/// ];
/// let table = Table::new(&bytes, 1)?;
/// let pair = table.record(Direction::Horizontal, 0, 0).expect("a record");
/// assert_eq!(pair.before.grow, 0x8000);
/// assert_eq!(pair.grow.priority, 1);
/// assert_eq!(table.record(Direction::Vertical, 0, 0), None);
/// # Ok::<(), just::Refusal>(())
/// ```
#[derive(Clone, Copy, Debug)]
pub struct Table<'a> {
    pub(crate) lent: raw::Table<'a>,
}

impl<'a> Table<'a> {
    /// Judges a table with a glyph count.
    pub fn new(bytes: &'a [u8], glyph_count: u32) -> Result<Table<'a>, Refusal> {
        let lent = raw::Table { bytes, glyph_count };
        Refusal::or(lent.check())?;
        Ok(Table { lent })
    }

    /// The lent bytes.
    pub fn bytes(&self) -> &'a [u8] {
        self.lent.bytes
    }

    /// The component glyphs of a type 0 action, as that very stretch of the table, two bytes each; empty where there is
    /// none.
    pub fn components(&self, direction: Direction, glyph: u16, number: u16) -> &'a [u8] {
        let at = self.lent.components(direction as u32, glyph, number);
        &self.lent.bytes[at.offset..at.offset + at.length]
    }

    /// The value of a glyph in a lookup, as the table has it: an offset; in the action lookup 0 names no list. Of the units
    /// left a find looks at the middle one, the lower of two, stops if that covers the glyph, and else keeps the half on the
    /// glyph's side. The table is judged first each time; the looks are those of the find alone.
    pub fn find(&self, direction: Direction, lookup: Lookup, glyph: u16) -> Result<Found, Refusal> {
        let said = Refusal::or(self.lent.value(direction as u32, lookup as u32, glyph))?;
        Ok(Found { value: said.found.then_some(said.value), looks: said.looks })
    }

    /// How many units a lookup has for a find, a closing one left out; no find there looks at more than `most` of them.
    pub fn units(&self, direction: Direction, lookup: Lookup) -> Result<Units, Refusal> {
        Refusal::or(self.lent.units(direction as u32, lookup as u32))
    }

    /// How many bytes the table's sheet has.
    pub fn sheet_length(&self) -> Result<usize, Refusal> {
        Refusal::or(self.lent.sheet_length()).map(|length| length as usize)
    }

    /// The table's sheet.
    pub fn write_sheet(&self) -> Result<Vec<u8>, Refusal> {
        let mut sheet = vec![0; self.sheet_length()?];
        self.write_sheet_into(&mut sheet)?;
        Ok(sheet)
    }

    /// Writes the table's sheet into the first bytes of the room and says how many they are; the rest stays as it was.
    /// [`Reason::ShortRoom`](crate::Reason::ShortRoom) where the sheet is longer, and then nothing is written.
    ///
    /// ```
    /// use just::{Reason, Refusal, Table};
    ///
    /// let bytes = [0, 1, 0, 0, 0, 0, 0, 0, 0, 0];
    /// let table = Table::new(&bytes, 1)?;
    /// let mut room = [7; 70];
    /// assert_eq!(table.write_sheet_into(&mut room), Ok(68));
    /// assert_eq!(room[68..], [7, 7]);
    /// assert_eq!(table.write_sheet_into(&mut room[..67]).unwrap_err().reason, Reason::ShortRoom);
    /// # Ok::<(), Refusal>(())
    /// ```
    pub fn write_sheet_into(&self, room: &mut [u8]) -> Result<usize, Refusal> {
        Refusal::or(self.lent.write_sheet(room)).map(|length| length as usize)
    }
}

impl Accepted for Table<'_> {
    fn count(&self) -> u32 {
        self.lent.glyph_count
    }

    fn asked(&self) -> impl Asked {
        self.lent
    }
}
