//! Action lists.

use super::{any, Part, Side, Walk};
use crate::field::Place;

/// The bytes of data that each type has, type 0 without its components.
const DATA: [u64; 6] = [12, 2, 8, 0, 16, 4];

impl Side<'_> {
    pub(super) fn list(self, glyph: u16, start: u64) -> Walk<()> {
        let head = self.part(Place::List { glyph }, start);
        let count = head.long(0, "action count", |count| count <= 64)?;
        let mut next = start + 4;
        for number in 0..count {
            next += self.action(glyph, number as u16, next)?;
        }
        Ok(())
    }

    /// Answers the action's length.
    fn action(self, glyph: u16, number: u16, start: u64) -> Walk<u64> {
        let action = self.part(Place::Action { glyph, number }, start);
        action.word(0, "class", |class| class <= 127)?;
        let ty = action.word(2, "type", |ty| ty <= 5)?;
        let least = 8 + DATA[ty as usize];
        let length = action.long(4, "length", |length| length.is_multiple_of(4) && length >= least)?;
        match ty {
            0 => self.ligature(glyph, number, action, length)?,
            _ => self.data(action, ty)?,
        }
        Ok(length)
    }

    /// The data of a type 0 action, whose components have to fit into its length.
    fn ligature(self, glyph: u16, number: u16, action: Part, length: u64) -> Walk<()> {
        action.long(8, "lower limit", any)?;
        action.long(12, "upper limit", any)?;
        action.word(16, "order", any)?;
        let fits = |count: u64| (1..=32).contains(&count) && 20 + 2 * count <= length;
        let count = action.word(18, "component count", fits)?;
        for component in 0..count {
            let place = Place::Component { glyph, action: number, number: component as u16 };
            let component = self.part(place, action.start + 20 + 2 * component);
            component.word(0, "glyph", |glyph| self.is_glyph(glyph))?;
        }
        Ok(())
    }

    /// The data of an action of another type.
    fn data(self, action: Part, ty: u64) -> Walk<()> {
        let is_glyph = |glyph| self.is_glyph(glyph);
        match ty {
            1 => {
                action.word(8, "glyph", is_glyph)?;
            }
            2 => {
                action.long(8, "threshold", any)?;
                action.word(12, "added glyph", |glyph| glyph == 0xFFFF || is_glyph(glyph))?;
                action.word(14, "substitute", is_glyph)?;
            }
            4 => {
                action.long(8, "axis", any)?;
                action.long(12, "minimum", any)?;
                action.long(16, "default", any)?;
                action.long(20, "maximum", any)?;
            }
            5 => {
                action.word(8, "flags", any)?;
                action.word(10, "glyph", is_glyph)?;
            }
            _ => {}
        }
        Ok(())
    }
}
