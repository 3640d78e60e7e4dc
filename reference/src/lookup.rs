//! Lookups in formats 0, 2, 4, 6 and 8 (document 01, "The table", the passage
//! on lookups).
//!
//! Units are judged in one pass, then every value of a glyph below N is found.
//! Afterwards one glyph is found by halving the units (document 02, request
//! 9/14), and all glyphs in turn are answered by a cursor that only rises.

use crate::bytes::{get_u16, judge, Bytes, Fault, LOOKUP};
use crate::meaning::DELETED;

/// Where the units of formats 2, 4 and 6 start: past the format and the five
/// fields of the search header, of which the last three are not read.
const UNITS: u64 = 12;

/// The glyphs that a unit covers, and its last field: their value, or in
/// format 4 the offset of an array.
#[derive(Clone, Copy, Debug)]
struct Unit {
    first: u16,
    last: u16,
    field: u16,
}

/// A unit as it stands in the table.
trait Stored {
    fn unit(&self) -> Unit;
}

/// Formats 2 and 4: last, first, value or offset.
type Segment = [u8; 6];

impl Stored for Segment {
    fn unit(&self) -> Unit {
        Unit { last: get_u16(self, 0), first: get_u16(self, 2), field: get_u16(self, 4) }
    }
}

/// Format 6: glyph, value.
type Single = [u8; 4];

impl Stored for Single {
    fn unit(&self) -> Unit {
        let glyph = get_u16(self, 0);
        Unit { first: glyph, last: glyph, field: get_u16(self, 2) }
    }
}

/// A counted closing unit is not among the units.
#[derive(Clone, Copy, Debug)]
enum Shape<'a> {
    /// Formats 0 and 8: `count` glyphs from `first`, a value for each.
    Plain { first: u32, count: u32, values: u64 },
    /// Format 2.
    Segments(&'a [Segment]),
    /// Format 4.
    Arrays(&'a [Segment]),
    /// Format 6.
    Singles(&'a [Single]),
}

/// A lookup that keeps its rules.
#[derive(Clone, Copy, Debug)]
pub struct Lookup<'a> {
    bytes: Bytes<'a>,
    base: u64,
    n: u32,
    shape: Shape<'a>,
}

/// What a find gives: the value, if any, and how many units were looked at.
#[derive(Clone, Copy, Debug, Default, PartialEq, Eq)]
pub struct Found {
    pub value: Option<u16>,
    pub looks: u32,
}

/// Glyphs that share one value field, and where that field is.
#[derive(Clone, Copy, Debug)]
struct Slot {
    first: u32,
    last: u32,
    at: u64,
}

/// Glyphs below N in a row that have one value.
#[derive(Clone, Copy, Debug, PartialEq, Eq)]
pub struct Run {
    pub first: u32,
    pub last: u32,
    pub value: u16,
}

impl<'a> Lookup<'a> {
    /// Finds and judges the lookup at `base` for glyphs below `n`.
    pub fn read(bytes: Bytes<'a>, base: u64, n: u32) -> Result<Lookup<'a>, Fault> {
        let shape = match bytes.u16(base)? {
            0 => Shape::Plain { first: 0, count: n, values: base + 2 },
            2 => Shape::Segments(read_segments(bytes, base)?),
            4 => Shape::Arrays(read_segments(bytes, base)?),
            6 => Shape::Singles(read_singles(bytes, base)?),
            8 => {
                let first = bytes.u16(base + 2)? as u32;
                Shape::Plain { first, count: bytes.u16(base + 4)? as u32, values: base + 6 }
            }
            _ => return Err(Fault::new(LOOKUP, base)),
        };
        let lookup = Lookup { bytes, base, n, shape };
        for slot in lookup.slots() {
            bytes.u16(slot.at)?;
        }
        Ok(lookup)
    }

    /// The value of a glyph.
    pub fn value(&self, glyph: u32) -> Option<u16> {
        if glyph < self.n {
            self.find(glyph as u16).value
        } else {
            None
        }
    }

    /// Finds a glyph and counts the units looked at. A glyph at or past N is
    /// looked for like any other and has no value; a deleted one is not looked
    /// for.
    pub fn find(&self, glyph: u16) -> Found {
        let (unit, looks) = match self.shape {
            _ if glyph == DELETED => (None, 0),
            Shape::Plain { first, count, values } => {
                let value = self.plain_value(glyph as u32, first, count, values);
                return Found { value, looks: 0 };
            }
            Shape::Segments(units) | Shape::Arrays(units) => by_halves(units, glyph),
            Shape::Singles(units) => by_halves(units, glyph),
        };
        let unit = unit.filter(|_| (glyph as u32) < self.n);
        Found { value: unit.map(|unit| self.unit_value(unit, glyph as u32)), looks }
    }

    /// How many units there are, the closing one left out; 0 in formats 0 and 8.
    pub fn unit_count(&self) -> usize {
        match self.shape {
            Shape::Plain { .. } => 0,
            Shape::Segments(units) | Shape::Arrays(units) => units.len(),
            Shape::Singles(units) => units.len(),
        }
    }

    /// All glyphs below N that have a value, rising.
    pub fn runs(&self) -> impl Iterator<Item = Run> + 'a {
        let bytes = self.bytes;
        self.slots().map(move |slot| Run { first: slot.first, last: slot.last, value: bytes.known_u16(slot.at) })
    }

    fn slots(&self) -> Slots<'a> {
        Slots { lookup: *self, unit: 0, glyph: 0 }
    }

    /// The value of a glyph in formats 0 and 8.
    fn plain_value(&self, glyph: u32, first: u32, count: u32, values: u64) -> Option<u16> {
        let covered = (first..first + count).contains(&glyph) && glyph < self.n;
        covered.then(|| self.bytes.known_u16(values + 2 * (glyph - first) as u64))
    }

    /// The value of a glyph below N that a unit covers.
    fn unit_value(&self, unit: Unit, glyph: u32) -> u16 {
        match self.shape {
            Shape::Arrays(_) => self.bytes.known_u16(self.array_at(unit, glyph)),
            _ => unit.field,
        }
    }

    /// The place of a glyph's value in the array of a format 4 unit.
    fn array_at(&self, unit: Unit, glyph: u32) -> u64 {
        self.base + unit.field as u64 + 2 * (glyph as u64 - unit.first as u64)
    }
}

/// The unit that covers a glyph, and how many units were looked at: each time
/// the middle of those left, the lower of two, after which the half on the
/// glyph's side is left (document 02, request 9/14).
fn by_halves<U: Stored>(units: &[U], glyph: u16) -> (Option<Unit>, u32) {
    let mut left = units;
    let mut looks = 0;
    while !left.is_empty() {
        let middle = (left.len() - 1) / 2;
        let unit = left[middle].unit();
        looks += 1;
        if glyph < unit.first {
            left = &left[..middle];
        } else if glyph > unit.last {
            left = &left[middle + 1..];
        } else {
            return (Some(unit), looks);
        }
    }
    (None, looks)
}

/// Unit size and unit count of a search header.
fn read_unit_header(bytes: Bytes, base: u64, size: u16) -> Result<u64, Fault> {
    judge(bytes.u16(base + 2)? == size, LOOKUP, base + 2)?;
    Ok(bytes.u16(base + 4)? as u64)
}

/// The units of formats 2 and 4: both comparisons are made at `first`, the
/// later field. A counted closing unit FFFF FFFF rises like any other, so
/// nothing can follow it.
fn read_segments(bytes: Bytes<'_>, base: u64) -> Result<&[Segment], Fault> {
    let units = read_unit_header(bytes, base, 6)?;
    let mut before: Option<u16> = None;
    for index in 0..units {
        let at = base + UNITS + 6 * index;
        let last = bytes.u16(at)?;
        let first = bytes.u16(at + 2)?;
        judge(first <= last && before.is_none_or(|b| b < first), LOOKUP, at + 2)?;
        bytes.u16(at + 4)?;
        before = Some(last);
    }
    Ok(without_closing(bytes.known_pieces(base + UNITS, units)))
}

/// The units of format 6.
fn read_singles(bytes: Bytes<'_>, base: u64) -> Result<&[Single], Fault> {
    let units = read_unit_header(bytes, base, 4)?;
    let mut before: Option<u16> = None;
    for index in 0..units {
        let at = base + UNITS + 4 * index;
        let glyph = bytes.u16(at)?;
        judge(before.is_none_or(|b| b < glyph), LOOKUP, at)?;
        bytes.u16(at + 2)?;
        before = Some(glyph);
    }
    Ok(without_closing(bytes.known_pieces(base + UNITS, units)))
}

/// The units ahead of a counted closing one, which covers nothing. One that
/// begins before FFFF and reaches it is a unit like any other.
fn without_closing<U: Stored>(units: &[U]) -> &[U] {
    match units.split_last() {
        Some((last, rest)) if last.unit().first == 0xFFFF => rest,
        _ => units,
    }
}

/// The rising cursor over the value fields of glyphs below N.
struct Slots<'a> {
    lookup: Lookup<'a>,
    unit: usize,
    glyph: u32,
}

impl Slots<'_> {
    /// Formats 0 and 8: one field for each glyph from `first` to below `end`.
    fn step_plain(&mut self, first: u32, end: u32, values: u64) -> Option<Slot> {
        let glyph = self.glyph.max(first);
        if glyph >= end.min(self.lookup.n) {
            return None;
        }
        self.glyph = glyph + 1;
        Some(Slot { first: glyph, last: glyph, at: values + 2 * (glyph - first) as u64 })
    }

    /// Formats 2 and 6: one field, the unit's last, for the glyphs of a unit.
    fn step_unit<U: Stored>(&mut self, units: &[U]) -> Option<Slot> {
        let lookup = self.lookup;
        let unit = units.get(self.unit)?.unit();
        self.unit += 1;
        let end = lookup.base + UNITS + (self.unit * size_of::<U>()) as u64;
        let (first, last) = (unit.first as u32, unit.last as u32);
        (first < lookup.n).then(|| Slot { first, last: last.min(lookup.n - 1), at: end - 2 })
    }

    /// Format 4: one field for each glyph of each unit.
    fn step_array(&mut self, units: &[Segment]) -> Option<Slot> {
        let lookup = self.lookup;
        while let Some(unit) = units.get(self.unit).map(Stored::unit) {
            let glyph = self.glyph.max(unit.first as u32);
            if glyph >= lookup.n {
                return None;
            }
            if glyph <= unit.last as u32 {
                self.glyph = glyph + 1;
                return Some(Slot { first: glyph, last: glyph, at: lookup.array_at(unit, glyph) });
            }
            self.unit += 1;
        }
        None
    }
}

impl Iterator for Slots<'_> {
    type Item = Slot;

    fn next(&mut self) -> Option<Slot> {
        match self.lookup.shape {
            Shape::Plain { first, count, values } => self.step_plain(first, first + count, values),
            Shape::Segments(units) => self.step_unit(units),
            Shape::Arrays(units) => self.step_array(units),
            Shape::Singles(units) => self.step_unit(units),
        }
    }
}
