//! Finds in a table's lookups (document 02, request 9/14): the value, how many units were looked at, and the most that can be.

use crate::questions::Questions;
use crate::refused::Refused;
use crate::tally::Tally;
use crate::{library, same, Outcome};
use just_raw::Table;
use reference::meaning::DELETED;
use reference::{generate, Direction, Found, Which};

/// How many glyphs are looked for in each lookup of a table that was drawn for it.
const EACH: usize = 10;

/// How far above a glyph another answer is looked for.
const NEAR: usize = 200;

/// What a run has to meet.
const MANY_UNITS: &str = "a find among 1,000 units or more";
const MOST_LOOKS: &str = "a find that takes the most looks";
const EARLY: &str = "a find that takes fewer looks";
const PAST: &str = "a find of a glyph at or past N that takes looks";
const VALUE_0: &str = "a find of action value 0";
pub const MARKS: [&str; 5] = [MANY_UNITS, MOST_LOOKS, EARLY, PAST, VALUE_0];

/// A table with long lookups, or with any.
pub fn draw(seed: u64, index: u64) -> (Vec<u8>, u32) {
    match index % 3 {
        0 => generate::table(seed, index),
        _ => generate::long_table(seed, index),
    }
}

/// The least b for which 2 to the power b exceeds the count.
fn least_over(count: usize) -> u32 {
    (0..).find(|&b| 1usize << b > count).expect("some power exceeds it")
}

/// Compares the finds in both lookups of both directions.
pub fn compare(table: Table, asked: &mut Questions, tally: &mut Tally) -> Outcome {
    let Table { bytes, glyph_count } = table;
    let second = reference::read_table(bytes, glyph_count).map_err(Refused::fault);
    for (way, which) in Direction::BOTH.into_iter().flat_map(|way| [(way, Which::Width), (way, Which::Action)]) {
        let count = second.as_ref().map(|read| read.unit_count(way, which));
        let units = count.map(|count| (count as u32, least_over(count))).map_err(|&refused| refused);
        same("units", library::units(table, way, which), units)?;
        for glyph in glyphs(second.as_ref().ok(), (way, which), glyph_count, asked) {
            let found = second.as_ref().map(|read| read.find(way, which, glyph)).map_err(|&refused| refused);
            same("value", library::found(table, way, which, glyph), found)?;
            if let (Ok(found), Ok((units, most))) = (found, units) {
                note(glyph, glyph_count, (which, units, most), found, tally);
            }
        }
    }
    Ok(())
}

/// Glyphs to look for: drawn ones, and those on both sides of where a find first answers otherwise above them, as it does
/// at the ends of units.
fn glyphs(read: Option<&reference::Table>, at: (Direction, Which), count: u32, asked: &mut Questions) -> Vec<u16> {
    let drawn: Vec<u16> = (0..EACH).map(|_| asked.glyph(count)).collect();
    let Some(read) = read else { return drawn };
    let ends = drawn.iter().filter_map(|&glyph| {
        let found = read.find(at.0, at.1, glyph);
        (glyph..0xFFFF).take(NEAR).find(|&next| read.find(at.0, at.1, next + 1) != found)
    });
    drawn.iter().copied().chain(ends.flat_map(|last| [last, last + 1])).collect()
}

fn note(glyph: u16, glyph_count: u32, (which, units, most): (Which, u32, u32), found: Found, tally: &mut Tally) {
    let past = u32::from(glyph) >= glyph_count && glyph != DELETED;
    let met = [
        (MANY_UNITS, units >= 1_000 && found.looks > 0),
        (MOST_LOOKS, units > 2 && found.looks == most),
        (EARLY, (1..most).contains(&found.looks)),
        (PAST, past && found.looks > 0),
        (VALUE_0, matches!(which, Which::Action) && found.value == Some(0)),
    ];
    met.iter().filter(|(_, shown)| *shown).for_each(|(mark, _)| tally.note(mark.to_string()));
}
