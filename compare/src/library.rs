//! What the proved library answers through its C boundary, in the second program's types. What stands beside a refusal, or
//! where nothing is found, has to be zeros.

use crate::refused::{said, Refused};
use just_raw::{self as raw, Asked, Found};
use reference::{Action, Cell, Direction, Sizes, Stretch, Which, WidthRecord};

/// A part, nothing, or a refusal.
pub type Part<T> = Result<Option<T>, Refused>;

/// The part that an answer holds, as the second program has it.
fn part<T: Default + PartialEq, U>(answer: raw::Part<T>, turn: impl Fn(T) -> U) -> Part<U> {
    let Found { found, part } = said(answer)?;
    assert!(found || part == T::default(), "a part that is not there is not zeros");
    Ok(found.then(|| turn(part)))
}

/// A direction's number.
pub fn number(direction: Direction) -> u32 {
    direction.index() as u32
}

pub fn sizes(of: impl Asked, way: Direction) -> Part<Sizes> {
    part(of.sizes(number(way)), |sizes| Sizes { rows: sizes.rows.into(), classes: sizes.classes.into() })
}

pub fn class(of: impl Asked, way: Direction, glyph: u16) -> Part<u8> {
    part(of.class(number(way), glyph), |class| class)
}

pub fn cell(of: impl Asked, way: Direction, row: u16, column: u16) -> Part<Cell> {
    part(of.cell(number(way), row, column), |entry| Cell { row: entry.row, flags: entry.flags })
}

/// The record, and its class.
pub fn record(of: impl Asked, way: Direction, glyph: u16, kind: u8) -> Part<(u32, WidthRecord)> {
    let turn = |raw::Pair { class, before, after, flags }| {
        let record = WidthRecord {
            before_grow: before.grow,
            before_shrink: before.shrink,
            after_grow: after.grow,
            after_shrink: after.shrink,
            grow_flags: flags.grow,
            shrink_flags: flags.shrink,
        };
        (class, record)
    };
    part(of.record(number(way), glyph, kind), turn)
}

pub fn action(of: impl Asked, way: Direction, glyph: u16, index: u16) -> Part<Action> {
    let turn = |raw::Action { class, ty, size, bytes }| {
        let (data, rest) = bytes.split_at(size as usize);
        assert!(rest.iter().all(|&byte| byte == 0), "no zeros after an action's data");
        Action { class, kind: ty, data: data.to_vec() }
    };
    part(of.action(number(way), glyph, index), turn)
}

/// A lookup's number.
fn lookup(which: Which) -> u32 {
    match which {
        Which::Width => 0,
        Which::Action => 1,
    }
}

/// A find: the value, if any, and the looks.
pub fn found(table: raw::Table, way: Direction, which: Which, glyph: u16) -> Result<reference::Found, Refused> {
    let raw::Value { found, value, looks } = said(table.value(number(way), lookup(which), glyph))?;
    assert!(found || value == 0, "a value that is not there is not 0");
    Ok(reference::Found { value: found.then_some(value), looks })
}

/// A lookup's units, and the bound on a find's looks.
pub fn units(table: raw::Table, way: Direction, which: Which) -> Result<(u32, u32), Refused> {
    said(table.units(number(way), lookup(which))).map(|raw::Units { units, most }| (units, most))
}

pub fn components(table: raw::Table, way: Direction, glyph: u16, index: u16) -> Stretch {
    let raw::Stretch { offset, length } = table.components(number(way), glyph, index);
    Stretch { at: offset, length }
}
