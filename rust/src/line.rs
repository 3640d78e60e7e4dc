//! Lines.

use crate::parts::Direction;
use crate::refusal::{Reason, Refusal};
use crate::table::Table;
use just_raw as raw;

pub use raw::{Lent, Verdict as VerdictRecord, GX_RULE, WITHIN_LIMITS};

/// The glyph that stands for a deleted one.
pub const DELETED: u16 = 0xFFFF;

/// The most actions of a glyph's list, all of which may fire.
const MOST_ACTIONS: usize = 64;

/// The units in a point.
pub const POINT: u32 = 65_536;

/// A line to be justified. Sizes, advances and target are in units; there are as many sizes and advances as glyphs.
#[derive(Clone, Copy, Debug)]
pub struct Line<'a> {
    pub direction: Direction,
    /// Whether the line starts the text.
    pub starts: bool,
    /// Whether the line ends the text.
    pub ends: bool,
    /// The edition of the rule by which the gap is shared: [`GX_RULE`], 1, or [`WITHIN_LIMITS`], 2.
    pub edition: u32,
    /// The point size of each glyph, 1 to 67,108,864, also of a deleted one; [`one_size`] makes those of a line in one size.
    pub sizes: &'a [u32],
    /// At most 1,024 glyphs; [`DELETED`] stands for a deleted one.
    pub glyphs: &'a [u16],
    pub advances: &'a [i32],
    /// The width wanted.
    pub target: i32,
}

/// The sizes of a line that is in one size: that size, once for each glyph.
///
/// ```
/// use just::{one_size, Direction, Line, GX_RULE, POINT};
///
/// let glyphs = [7, 8, 9];
/// let sizes = one_size(12 * POINT, &glyphs);
/// assert_eq!(sizes, [786_432; 3]);
/// let line = Line {
///     direction: Direction::Horizontal,
///     starts: true,
///     ends: true,
///     edition: GX_RULE,
///     sizes: &sizes,
///     glyphs: &glyphs,
///     advances: &[400_000; 3],
///     target: 1_300_000,
/// };
/// ```
pub fn one_size(size: u32, glyphs: &[u16]) -> Vec<u32> {
    vec![size; glyphs.len()]
}

/// What is said of a line whose buffers were filled.
#[derive(Clone, Copy, Debug, PartialEq, Eq)]
pub struct Answer {
    /// What is left of the gap.
    pub remainder: i32,
    /// How many entries the class walk took; 0 without a machine.
    pub entries: u32,
    /// How many verdicts were stored.
    pub verdicts: usize,
}

/// An action that fires.
#[derive(Clone, Copy, Debug, PartialEq, Eq, Hash)]
pub struct Verdict {
    /// The glyph's place in the line, from 0.
    pub place: u16,
    /// The action's number in the glyph's list, from 0.
    pub action: u16,
    pub substitutes: bool,
}

impl From<VerdictRecord> for Verdict {
    fn from(record: VerdictRecord) -> Verdict {
        Verdict { place: record.place, action: record.action, substitutes: record.substitutes != 0 }
    }
}

/// A justified line.
#[derive(Clone, Debug, PartialEq, Eq)]
pub struct Justified {
    pub classes: Vec<u8>,
    /// The movements before each glyph, in units; with those after and the remainder they sum to the gap.
    pub before: Vec<i32>,
    pub after: Vec<i32>,
    pub remainder: i32,
    pub entries: u32,
    pub verdicts: Vec<Verdict>,
}

impl Table<'_> {
    /// Justifies a line into lent buffers. A refusal changes none of them. [`Verdict::from`] reads a record of the list.
    ///
    /// ```
    /// use just::{Answer, Direction, Lent, Line, Table, POINT, WITHIN_LIMITS};
    ///
    /// let bytes = [0, 1, 0, 0, 0, 0, 0, 0, 0, 0];
    /// let table = Table::new(&bytes, 1)?;
    /// let line = Line {
    ///     direction: Direction::Horizontal,
    ///     starts: true,
    ///     ends: true,
    ///     edition: WITHIN_LIMITS,
    ///     sizes: &[14 * POINT, 9 * POINT],
    ///     glyphs: &[0, 0],
    ///     advances: &[500, 500],
    ///     target: 1_004,
    /// };
    /// let (mut classes, mut before, mut after) = ([9; 2], [9; 2], [9; 2]);
    /// let lent = Lent { classes: &mut classes, before: &mut before, after: &mut after, verdicts: &mut [] };
    /// // Nothing can grow, so all of the gap is left.
    /// assert_eq!(table.justify_into(&line, lent), Ok(Answer { remainder: 4, entries: 0, verdicts: 0 }));
    /// assert_eq!((classes, before, after), ([0; 2], [0; 2], [0; 2]));
    /// # Ok::<(), just::Refusal>(())
    /// ```
    pub fn justify_into(&self, line: &Line, lent: Lent) -> Result<Answer, Refusal> {
        let Line { direction, starts, ends, edition, sizes, glyphs, advances, target } = *line;
        let line = raw::Line { direction: direction as u32, starts, ends, edition, sizes, glyphs, advances, target };
        let raw::Said { remainder, entries, verdicts } = Refusal::or(self.lent.justify(&line, lent))?;
        Ok(Answer { remainder, entries, verdicts: verdicts as usize })
    }

    /// Justifies a line.
    ///
    /// ```
    /// use just::{Direction, Line, Reason, Refusal, Table, GX_RULE, POINT, WITHIN_LIMITS};
    ///
    /// // Glyph 0 grows by up to half an em after it: at 14 pt by 7 points, at 9 pt by 4.5.
    /// let bytes = [
    ///     0, 1, 0, 0, 0, 0, 0, 10, 0, 0, 0, 0, 0, 24, 0, 0, 0, 8, 0, 0, 0, 1, 0, 0,
    ///     0, 0, 0, 1, 0, 0, 0, 0, 0, 0, 0, 0, 0, 0, 0, 0, 0, 0, 0x80, 0, 0, 0, 0, 0, 0, 0, 0, 0,
    /// ];
    /// let table = Table::new(&bytes, 2)?;
    /// let line = Line {
    ///     direction: Direction::Horizontal,
    ///     starts: true,
    ///     ends: true,
    ///     edition: GX_RULE,
    ///     sizes: &[14 * POINT, 9 * POINT, 9 * POINT],
    ///     glyphs: &[0, 1, 0],
    ///     advances: &[100, 100, 100],
    ///     target: 323,
    /// };
    /// let justified = table.justify(&line)?;
    /// assert_eq!(justified.after, [14, 0, 9]);
    ///
    /// // 11.5 points are all that the two may grow by. The GX rule lets them pass that by the 23 units more.
    /// let wide = 300 + 23 * POINT as i32 / 2 + 23;
    /// assert_eq!(table.justify(&Line { target: wide, ..line })?.remainder, 0);
    /// assert_eq!(table.justify(&Line { target: wide, edition: WITHIN_LIMITS, ..line })?.remainder, 23);
    ///
    /// let refused = table.justify(&Line { sizes: &[14 * POINT, 0, 9 * POINT], ..line });
    /// assert_eq!(refused, Err(Refusal { reason: Reason::PointSize, offset: 0 }));
    /// # Ok::<(), Refusal>(())
    /// ```
    pub fn justify(&self, line: &Line) -> Result<Justified, Refusal> {
        let count = line.glyphs.len();
        match self.justify_with(line, count) {
            // A refused call changes nothing, so it can be made again with all the room that a line can need.
            Err(Refusal { reason: Reason::ShortRoom, .. }) => self.justify_with(line, MOST_ACTIONS * count),
            answered => answered,
        }
    }

    /// The same with room for so many verdicts.
    fn justify_with(&self, line: &Line, room: usize) -> Result<Justified, Refusal> {
        let count = line.glyphs.len();
        let (mut classes, mut before, mut after) = (vec![0; count], vec![0; count], vec![0; count]);
        let mut records = vec![VerdictRecord::default(); room];
        let lent = Lent { classes: &mut classes, before: &mut before, after: &mut after, verdicts: &mut records };
        let Answer { remainder, entries, verdicts: stored } = self.justify_into(line, lent)?;
        let verdicts = records[..stored].iter().copied().map(Verdict::from).collect();
        Ok(Justified { classes, before, after, remainder, entries, verdicts })
    }
}
