//! The parts of a meaning, and the questions that tables and sheets both
//! answer (document 01, "The sheet": what a meaning is).

/// The two directions of a table; horizontal comes first everywhere.
#[derive(Clone, Copy, Debug, PartialEq, Eq, Hash)]
pub enum Direction {
    Horizontal,
    Vertical,
}

impl Direction {
    pub const BOTH: [Direction; 2] = [Direction::Horizontal, Direction::Vertical];

    pub fn index(self) -> usize {
        match self {
            Direction::Horizontal => 0,
            Direction::Vertical => 1,
        }
    }
}

/// A machine's row count S and its class count.
#[derive(Clone, Copy, Debug, PartialEq, Eq, Hash)]
pub struct Sizes {
    pub rows: u32,
    pub classes: u32,
}

/// One cell of a machine: the new row's number and the flags.
#[derive(Clone, Copy, Debug, PartialEq, Eq, Hash)]
pub struct Cell {
    pub row: u16,
    pub flags: u16,
}

/// A width record as the sheet writes it: shrink limits as sizes, and of the
/// flags only the bits that are kept.
#[derive(Clone, Copy, Debug, PartialEq, Eq, Hash)]
pub struct WidthRecord {
    pub before_grow: u32,
    pub before_shrink: u32,
    pub after_grow: u32,
    pub after_shrink: u32,
    pub grow_flags: u16,
    pub shrink_flags: u16,
}

/// The flag of a glyph that takes all that is left.
pub const UNLIMITED: u16 = 0x1000;
/// The bits of a flags field that hold the priority.
pub const PRIORITY: u16 = 0x000F;
/// The bits of a flags field that a meaning keeps.
pub const KEPT_FLAGS: u16 = UNLIMITED | PRIORITY;
/// 16 em, the greatest limit.
pub const LIMIT: u32 = 16 << 16;
/// The deleted glyph; also "none" as a type 2 action's added glyph.
pub const DELETED: u16 = 0xFFFF;

/// An action as the sheet writes it: data without padding, and the flags of
/// type 5 zero.
#[derive(Clone, Debug, PartialEq, Eq, Hash)]
pub struct Action {
    pub class: u16,
    pub kind: u16,
    pub data: Vec<u8>,
}

/// A stretch of a table's bytes; empty is position 0, length 0.
#[derive(Clone, Copy, Debug, Default, PartialEq, Eq)]
pub struct Stretch {
    pub at: usize,
    pub length: usize,
}

/// The questions that can be asked of a meaning. Where there is nothing, the
/// answer is `None`.
pub trait Parts {
    /// N.
    fn glyph_count(&self) -> u32;
    /// Row count S and class count.
    fn sizes(&self, direction: Direction) -> Option<Sizes>;
    /// The class of a glyph below N, where there is a machine.
    fn glyph_class(&self, direction: Direction, glyph: u32) -> Option<u8>;
    /// The cell of a row below S and a class below the class count.
    fn cell(&self, direction: Direction, row: u32, class: u32) -> Option<Cell>;
    /// The width record of a glyph for a justification class.
    fn width_record(&self, direction: Direction, glyph: u32, class: u32) -> Option<WidthRecord>;
    /// The action of a glyph by its number in the list.
    fn action(&self, direction: Direction, glyph: u32, number: u32) -> Option<Action>;
}
