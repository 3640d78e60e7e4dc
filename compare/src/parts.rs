//! The parts of a meaning, asked of a table or a sheet of the library and of the second program.

use crate::questions::{self, Questions};
use crate::refused::{said, Refused};
use crate::{library, same, Outcome};
use just_raw::Asked;
use reference::{Direction, Parts};

/// Compares answers at random and at the edges; `read` is what the second program has, or its refusal.
pub fn compare<T: Parts>(what: &str, of: impl Asked, read: Result<&T, Refused>, asked: &mut Questions) -> Outcome {
    let says = |part: &str| format!("{part} of a {what}");
    same(&says("count"), said(of.count()), read.map(|read| read.glyph_count()))?;
    let glyphs = read.map_or(12, |read| read.glyph_count());
    for way in Direction::BOTH {
        let sizes = read.map(|read| read.sizes(way));
        same(&says("sizes"), library::sizes(of, way), sizes)?;
        let sizes = sizes.ok().flatten();
        for _ in 0..questions::EACH {
            let glyph = asked.glyph(glyphs);
            same(&says("class"), library::class(of, way, glyph), read.map(|read| read.glyph_class(way, glyph.into())))?;
            let (row, column) = asked.cell(sizes);
            let cell = read.map(|read| read.cell(way, row.into(), column.into()));
            same(&says("cell"), library::cell(of, way, row, column), cell)?;
            let kind = asked.class();
            let record = read.map(|read| read.width_record(way, glyph.into(), kind.into()));
            let record = record.map(|found| found.map(|found| (u32::from(kind), found)));
            same(&says("record"), library::record(of, way, glyph, kind), record)?;
            let number = asked.action();
            let action = read.map(|read| read.action(way, glyph.into(), number.into()));
            same(&says("action"), library::action(of, way, glyph, number), action)?;
        }
    }
    Ok(())
}
