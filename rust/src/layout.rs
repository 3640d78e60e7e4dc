//! A map of the table's layout (document 01, "The table"): it goes along the fields in the order in which the library judges
//! them, up to the first that is not wholly in the table or breaks its rule.
//!
//! The library alone judges tables. This only finds words for what it refused: where the two do not agree on number and
//! byte, no field is named.
//!
//! Each distinct value of a lookup is followed once, and a value leads to a bounded number of fields: so the time grows with
//! the table's length, and not with that times the glyph count.

mod cluster;
mod list;
mod lookup;
mod machine;

use crate::field::{Field, Place};
use crate::parts::Direction;
use crate::refusal::{Reason, Refusal};
use crate::table::Lookup;

/// A field that is not there or breaks its rule, and the refusal for it.
pub(crate) struct Fault {
    pub(crate) refusal: Refusal,
    pub(crate) field: Field,
}

type Walk<T> = Result<T, Fault>;

/// The first fault of a table that is read with so many glyphs; its version and format are not looked at.
pub(crate) fn first_fault(table: &[u8], glyphs: u16) -> Option<Fault> {
    let both = [(Direction::Horizontal, 6), (Direction::Vertical, 8)];
    both.into_iter().find_map(|(direction, at)| {
        let side = Side { table, glyphs, direction };
        match side.number(at, 2)? {
            0 => None,
            start => side.walk(start).err(),
        }
    })
}

/// The rule of a field that may hold any number.
fn any(_: u64) -> bool {
    true
}

/// A direction of a table, and the glyph count.
#[derive(Clone, Copy)]
struct Side<'a> {
    table: &'a [u8],
    glyphs: u16,
    direction: Direction,
}

/// A part of a direction, and where it begins.
#[derive(Clone, Copy)]
struct Part<'a> {
    side: Side<'a>,
    place: Place,
    start: u64,
}

impl Part<'_> {
    /// The field of so many bytes at an offset from the part's start: it has to be there, and then to keep its rule.
    fn field(&self, offset: u64, width: usize, name: &'static str, keeps: impl Fn(u64) -> bool) -> Walk<u64> {
        let at = self.start + offset;
        let reason = match self.side.number(at, width) {
            Some(number) if keeps(number) => return Ok(number),
            Some(_) => self.place.reason(),
            None => Reason::Outside,
        };
        let field = Field { direction: self.side.direction, place: self.place, name };
        Err(Fault { refusal: Refusal { reason, offset: at }, field })
    }

    fn byte(&self, offset: u64, name: &'static str, keeps: impl Fn(u64) -> bool) -> Walk<u64> {
        self.field(offset, 1, name, keeps)
    }

    fn word(&self, offset: u64, name: &'static str, keeps: impl Fn(u64) -> bool) -> Walk<u64> {
        self.field(offset, 2, name, keeps)
    }

    fn long(&self, offset: u64, name: &'static str, keeps: impl Fn(u64) -> bool) -> Walk<u64> {
        self.field(offset, 4, name, keeps)
    }
}

impl<'a> Side<'a> {
    /// The number that so many bytes hold, where all of them are there.
    fn number(self, at: u64, width: usize) -> Option<u64> {
        let at = usize::try_from(at).ok()?;
        let bytes = self.table.get(at..at.checked_add(width)?)?;
        Some(bytes.iter().fold(0, |number, &byte| number << 8 | u64::from(byte)))
    }

    fn part(self, place: Place, start: u64) -> Part<'a> {
        Part { side: self, place, start }
    }

    fn is_glyph(self, number: u64) -> bool {
        number < self.glyphs.into()
    }

    fn walk(self, start: u64) -> Walk<()> {
        let offsets = self.part(Place::Offsets, start);
        let machine = offsets.word(0, "offset of the machine", any)?;
        let clusters = offsets.word(2, "offset of the clusters", any)?;
        let actions = offsets.word(4, "offset of the actions", any)?;
        if machine != 0 {
            self.machine(machine)?;
        }
        for (glyph, value) in self.lookup(Lookup::Width, start + 6)? {
            self.cluster(glyph, clusters + value)?;
        }
        if actions == 0 {
            return Ok(());
        }
        for (glyph, value) in self.lookup(Lookup::Action, actions)? {
            if value != 0 {
                self.list(glyph, actions + value)?;
            }
        }
        Ok(())
    }
}
