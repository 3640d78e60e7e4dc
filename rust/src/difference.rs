//! What changed between two tables (document 02, request 6/14).

use crate::parts::{Accepted, Direction};
use crate::refusal::Refusal;
use crate::table::Table;
use just_raw as raw;
use std::error::Error;
use std::fmt;

/// A difference of two tables.
#[derive(Clone, Copy, Debug, PartialEq, Eq, Hash)]
pub struct Difference {
    pub direction: Direction,
    pub part: DifferingPart,
    pub mark: Mark,
}

/// What differs, and where.
#[derive(Clone, Copy, Debug, PartialEq, Eq, Hash)]
pub enum DifferingPart {
    /// The sizes of the class machines, rows and classes as one; or one table has no machine.
    Sizes,
    /// The machine's class of a glyph.
    Class { glyph: u16 },
    /// A cell of the machine.
    Cell { row: u16, class: u16 },
    /// The width record of a glyph for a class.
    Record { glyph: u16, class: u8 },
    /// A glyph's action list, as a whole.
    Actions { glyph: u16 },
}

/// Whether both tables have it and it is not the same, or one of them alone has it.
#[derive(Clone, Copy, Debug, PartialEq, Eq, Hash)]
pub enum Mark {
    Changed,
    OnlyInFirst,
    OnlyInSecond,
}

/// Two tables that are not read with one glyph count: their differences are not listed.
#[derive(Clone, Copy, Debug, PartialEq, Eq, Hash)]
pub struct UnlikeCounts {
    pub first: u32,
    pub second: u32,
}

impl fmt::Display for UnlikeCounts {
    fn fmt(&self, out: &mut fmt::Formatter) -> fmt::Result {
        let UnlikeCounts { first, second } = self;
        write!(out, "the first table is read with {first} glyphs and the second with {second}: ")?;
        write!(out, "differences are listed of tables that are read with one glyph count")
    }
}

impl Error for UnlikeCounts {}

impl Difference {
    /// What the library's numbers say.
    fn of(raw: raw::Difference) -> Difference {
        let raw::Difference { direction, kind, mark, numbers: [one, two] } = raw;
        Difference {
            direction: if direction == 0 { Direction::Horizontal } else { Direction::Vertical },
            part: match kind {
                0 => DifferingPart::Sizes,
                1 => DifferingPart::Class { glyph: one },
                2 => DifferingPart::Cell { row: one, class: two },
                3 => DifferingPart::Record { glyph: one, class: two as u8 },
                _ => DifferingPart::Actions { glyph: one },
            },
            mark: match mark {
                0 => Mark::Changed,
                1 => Mark::OnlyInFirst,
                _ => Mark::OnlyInSecond,
            },
        }
    }
}

impl Table<'_> {
    /// How many differences a second table has from this one.
    pub fn difference_count(&self, second: &Table) -> Result<usize, UnlikeCounts> {
        self.one_count(second)?;
        Ok(listed(self.lent.difference_count(second.bytes())))
    }

    /// What a second table, read with the same glyph count, has changed of this one: horizontal before vertical, and in each
    /// direction sizes, classes by glyph, cells row by row, records by glyph and class, actions by glyph. Where the machines
    /// differ in size, or one table has none, only that is listed of them. Empty exactly when the tables mean the same.
    ///
    /// ```
    /// use just::{Difference, DifferingPart, Direction, Mark, Table};
    ///
    /// // Glyph 0 grows by up to half an em before it, in stage 1.
    /// let first = [
    ///     0, 1, 0, 0, 0, 0, 0, 10, 0, 0, // version, format, horizontal at 10, no vertical
    ///     0, 0, 0, 24, 0, 0, // no machine, clusters at 24, no actions
    ///     0, 8, 0, 0, 0, 1, 0, 0, // a lookup of format 8: glyph 0 has the first cluster
    ///     0, 0, 0, 1, 0, 0, 0, 0, // one pair, for class 0
    ///     0, 0, 0x80, 0, 0, 0, 0, 0, // before: grow, shrink
    ///     0, 0, 0, 0, 0, 0, 0, 0, // after
    ///     0, 1, 0, 0, // flags
    /// ];
    /// // In the second delivery by a quarter.
    /// let mut second = first;
    /// second[34] = 0x40;
    /// let [first, second] = [Table::new(&first, 1)?, Table::new(&second, 1)?];
    /// let part = DifferingPart::Record { glyph: 0, class: 0 };
    /// let changed = Difference { direction: Direction::Horizontal, part, mark: Mark::Changed };
    /// assert_eq!(first.differences(&second), Ok(vec![changed]));
    /// assert_eq!(first.differences(&first), Ok(vec![]));
    /// # Ok::<(), just::Refusal>(())
    /// ```
    pub fn differences(&self, second: &Table) -> Result<Vec<Difference>, UnlikeCounts> {
        let mut room = vec![raw::Difference::default(); self.difference_count(second)?];
        listed(self.lent.differences(second.bytes(), &mut room));
        Ok(room.into_iter().map(Difference::of).collect())
    }

    fn one_count(&self, second: &Table) -> Result<(), UnlikeCounts> {
        let counts = UnlikeCounts { first: self.count(), second: second.count() };
        if counts.first == counts.second {
            Ok(())
        } else {
            Err(counts)
        }
    }
}

/// How many differences an answer says. No refusal can come: both tables were accepted before, and the room is large enough.
fn listed(answer: raw::Answer<u32>) -> usize {
    Refusal::or(answer).expect("what was accepted is accepted again, and the room holds all") as usize
}
