//! The fields of a table, in words.

use crate::layout;
use crate::parts::Direction;
use crate::refusal::{Reason, Refusal};
use crate::table::Lookup;
use std::fmt;

/// A field of a table: in which direction and in which part it stands, and its name.
#[derive(Clone, Copy, Debug, PartialEq, Eq, Hash)]
pub struct Field {
    pub direction: Direction,
    pub place: Place,
    pub name: &'static str,
}

/// A part of a direction. Numbers count from 0. `Offsets` are the three that a direction begins with, a `Cell` is one of the
/// state array, an `Entry` the one that a cell names, a `Value` that of a glyph in an array of values, a `Component` one of
/// a type 0 action. What several glyphs have is named by the first of them.
#[derive(Clone, Copy, Debug, PartialEq, Eq, Hash)]
pub enum Place {
    Offsets,
    Machine,
    ClassTable,
    Class { glyph: u16 },
    Cell { row: u16, class: u16 },
    Entry { row: u16, class: u16, number: u16 },
    Lookup { lookup: Lookup },
    Unit { lookup: Lookup, number: u16 },
    Value { lookup: Lookup, glyph: u16 },
    Cluster { glyph: u16 },
    Pair { glyph: u16, number: u16 },
    List { glyph: u16 },
    Action { glyph: u16, number: u16 },
    Component { glyph: u16, action: u16, number: u16 },
}

impl Field {
    /// The field that a refusal of a table speaks of: the one that was being read or judged. `None` for refusals other than
    /// 4 to 8, and for one that is not this table's.
    ///
    /// ```
    /// use just::{Field, Table};
    ///
    /// let bytes = [0, 1, 0, 0, 0, 0, 0, 10, 0, 0, 0, 0];
    /// let refusal = Table::new(&bytes, 1).unwrap_err();
    /// assert_eq!(refusal.offset, 12);
    /// let field = Field::of(&bytes, 1, refusal).expect("a field");
    /// assert_eq!(field.to_string(), "horizontal: offset of the clusters");
    /// ```
    pub fn of(table: &[u8], glyph_count: u32, refusal: Refusal) -> Option<Field> {
        let glyphs = u16::try_from(glyph_count).ok().filter(|_| refusal.reason.has_offset())?;
        let fault = layout::first_fault(table, glyphs)?;
        (fault.refusal == refusal).then_some(fault.field)
    }
}

impl Place {
    /// The refusal of a field in this part that breaks its rule; offsets have none.
    pub(crate) fn reason(self) -> Reason {
        match self {
            Place::Offsets => Reason::Outside,
            Place::Machine | Place::ClassTable | Place::Class { .. } => Reason::BadMachine,
            Place::Cell { .. } | Place::Entry { .. } => Reason::BadMachine,
            Place::Lookup { .. } | Place::Unit { .. } | Place::Value { .. } => Reason::BadLookup,
            Place::Cluster { .. } | Place::Pair { .. } => Reason::BadCluster,
            Place::List { .. } | Place::Action { .. } | Place::Component { .. } => Reason::BadActions,
        }
    }
}

fn lookup_name(lookup: Lookup) -> &'static str {
    match lookup {
        Lookup::Width => "width lookup",
        Lookup::Action => "action lookup",
    }
}

impl fmt::Display for Place {
    fn fmt(&self, out: &mut fmt::Formatter) -> fmt::Result {
        match *self {
            Place::Offsets => write!(out, "offsets"),
            Place::Machine => write!(out, "machine"),
            Place::ClassTable => write!(out, "machine, class table"),
            Place::Class { glyph } => write!(out, "machine, class table, glyph {glyph}"),
            Place::Cell { row, class } => write!(out, "machine, row {row}, class {class}"),
            Place::Entry { row, class, number } => write!(out, "machine, row {row}, class {class}, entry {number}"),
            Place::Lookup { lookup } => write!(out, "{}", lookup_name(lookup)),
            Place::Unit { lookup, number } => write!(out, "{}, unit {number}", lookup_name(lookup)),
            Place::Value { lookup, glyph } => write!(out, "{}, glyph {glyph}", lookup_name(lookup)),
            Place::Cluster { glyph } => write!(out, "glyph {glyph}, cluster"),
            Place::Pair { glyph, number } => write!(out, "glyph {glyph}, pair {number}"),
            Place::List { glyph } => write!(out, "glyph {glyph}, action list"),
            Place::Action { glyph, number } => write!(out, "glyph {glyph}, action {number}"),
            Place::Component { glyph, action, number } => {
                write!(out, "glyph {glyph}, action {action}, component {number}")
            }
        }
    }
}

impl fmt::Display for Field {
    fn fmt(&self, out: &mut fmt::Formatter) -> fmt::Result {
        let direction = match self.direction {
            Direction::Horizontal => "horizontal",
            Direction::Vertical => "vertical",
        };
        match self.place {
            Place::Offsets => write!(out, "{direction}: {}", self.name),
            place => write!(out, "{direction}, {place}: {}", self.name),
        }
    }
}
