//! Lookups.

use super::{any, Part, Side, Walk};
use crate::field::Place;
use crate::table::Lookup;
use std::ops::Range;

/// The values that a lookup gives, each with the first glyph that has it, in the order of glyphs.
struct Values {
    glyphs: u16,
    met: Vec<bool>,
    firsts: Vec<(u16, u64)>,
}

impl Values {
    /// Only glyphs below N have values.
    fn note(&mut self, glyph: u64, value: u64) {
        if glyph < self.glyphs.into() && !std::mem::replace(&mut self.met[value as usize], true) {
            self.firsts.push((glyph as u16, value));
        }
    }
}

impl Side<'_> {
    pub(super) fn lookup(self, lookup: Lookup, start: u64) -> Walk<Vec<(u16, u64)>> {
        let head = self.part(Place::Lookup { lookup }, start);
        let mut values = Values { glyphs: self.glyphs, met: vec![false; 1 << 16], firsts: Vec::new() };
        match head.word(0, "format", |format| matches!(format, 0 | 2 | 4 | 6 | 8))? {
            0 => self.array(lookup, 0..self.glyphs.into(), start + 2, &mut values)?,
            2 => {
                for (first, _, value) in self.segments(head, lookup, "value")? {
                    values.note(first, value);
                }
            }
            4 => {
                for (first, last, offset) in self.segments(head, lookup, "offset of the values")? {
                    self.array(lookup, first..last + 1, start + offset, &mut values)?;
                }
            }
            6 => {
                for (glyph, value) in self.singles(head, lookup)? {
                    values.note(glyph, value);
                }
            }
            _ => {
                let first = head.word(2, "first glyph", any)?;
                let count = head.word(4, "glyph count", any)?;
                self.array(lookup, first..first + count, start + 6, &mut values)?;
            }
        }
        Ok(values.firsts)
    }

    /// A value for each of these glyphs that is below N.
    fn array(self, lookup: Lookup, glyphs: Range<u64>, start: u64, values: &mut Values) -> Walk<()> {
        let first = glyphs.start;
        for glyph in glyphs.take_while(|&glyph| self.is_glyph(glyph)) {
            let place = Place::Value { lookup, glyph: glyph as u16 };
            let value = self.part(place, start + 2 * (glyph - first)).word(0, "value", any)?;
            values.note(glyph, value);
        }
        Ok(())
    }

    /// The places of units of so many bytes.
    fn units<'a>(head: Part<'a>, lookup: Lookup, size: u64) -> Walk<impl Iterator<Item = Part<'a>>> {
        head.word(2, "unit size", |stored| stored == size)?;
        let count = head.word(4, "unit count", any)?;
        let unit = move |number| Place::Unit { lookup, number: number as u16 };
        Ok((0..count).map(move |number| head.side.part(unit(number), head.start + 12 + size * number)))
    }

    /// The units of formats 2 and 4: the first glyph, the last one, and what stands after them.
    fn segments(self, head: Part, lookup: Lookup, name: &'static str) -> Walk<Vec<(u64, u64, u64)>> {
        let mut units = Vec::new();
        let mut least = 0;
        for unit in Self::units(head, lookup, 6)? {
            let last = unit.word(0, "last glyph", any)?;
            let first = unit.word(2, "first glyph", |first| (least..=last).contains(&first))?;
            units.push((first, last, unit.word(4, name, any)?));
            least = last + 1;
        }
        Ok(units)
    }

    /// The units of format 6: glyph and value.
    fn singles(self, head: Part, lookup: Lookup) -> Walk<Vec<(u64, u64)>> {
        let mut units = Vec::new();
        let mut least = 0;
        for unit in Self::units(head, lookup, 4)? {
            let glyph = unit.word(0, "glyph", |glyph| glyph >= least)?;
            units.push((glyph, unit.word(2, "value", any)?));
            least = glyph + 1;
        }
        Ok(units)
    }
}
