//! Action lists (document 01, "The table", the passage on action values).

use crate::bytes::{get_u16, judge, put_u16, put_u32, Bytes, Fault, ACTIONS};
use crate::meaning::{Action, Stretch, DELETED};

/// The most actions of a list.
pub const MOST_ACTIONS: u32 = 64;
/// The greatest class of an action.
pub const LAST_CLASS: u16 = 127;
/// The greatest type of an action.
pub const LAST_KIND: u16 = 5;
/// The most glyphs of a component list.
pub const MOST_COMPONENTS: u16 = 32;
/// Class, type and length stand before the data.
const HEAD: u64 = 8;
/// Lower, upper, order and count stand before a type 0 action's glyphs.
pub const DECOMPOSE: u64 = 12;

/// The bytes of data that a type has, type 0 without its glyphs.
pub fn fixed_data(kind: u16) -> u64 {
    match kind {
        0 => DECOMPOSE,
        1 => 2,
        2 => 8,
        3 => 0,
        4 => 16,
        _ => 4,
    }
}

/// Finds and judges the list at `at`. An action starts where the length of the
/// one ahead of it says; padding is not read.
pub fn check(bytes: Bytes, at: u64, n: u32) -> Result<(), Fault> {
    let count = bytes.u32(at)?;
    judge(count <= MOST_ACTIONS, ACTIONS, at)?;
    let mut start = at + 4;
    for _ in 0..count {
        start += check_action(bytes, start, n)?;
    }
    Ok(())
}

/// Judges one action and gives its length.
fn check_action(bytes: Bytes, start: u64, n: u32) -> Result<u64, Fault> {
    judge(bytes.u16(start)? <= LAST_CLASS, ACTIONS, start)?;
    let kind = bytes.u16(start + 2)?;
    judge(kind <= LAST_KIND, ACTIONS, start + 2)?;
    let length = bytes.u32(start + 4)? as u64;
    judge(length.is_multiple_of(4) && length >= HEAD + fixed_data(kind), ACTIONS, start + 4)?;
    let data = start + HEAD;
    match kind {
        0 => check_decompose(bytes, data, length, n)?,
        1 => check_glyph(bytes, data, n)?,
        2 => check_conditional(bytes, data, n)?,
        3 => {}
        4 => {
            for field in 0..4 {
                bytes.u32(data + 4 * field)?;
            }
        }
        _ => {
            bytes.u16(data)?;
            check_glyph(bytes, data + 2, n)?;
        }
    }
    Ok(length)
}

/// Type 0: the count is judged by itself, then with the length.
fn check_decompose(bytes: Bytes, data: u64, length: u64, n: u32) -> Result<(), Fault> {
    bytes.u32(data)?;
    bytes.u32(data + 4)?;
    bytes.u16(data + 8)?;
    let count = bytes.u16(data + 10)?;
    judge((1..=MOST_COMPONENTS).contains(&count), ACTIONS, data + 10)?;
    judge(HEAD + DECOMPOSE + 2 * count as u64 <= length, ACTIONS, data + 10)?;
    for index in 0..count as u64 {
        check_glyph(bytes, data + DECOMPOSE + 2 * index, n)?;
    }
    Ok(())
}

/// Type 2: threshold, added glyph (FFFF means none), substitute.
fn check_conditional(bytes: Bytes, data: u64, n: u32) -> Result<(), Fault> {
    bytes.u32(data)?;
    let added = bytes.u16(data + 4)?;
    judge(added == DELETED || (added as u32) < n, ACTIONS, data + 4)?;
    check_glyph(bytes, data + 6, n)
}

fn check_glyph(bytes: Bytes, at: u64, n: u32) -> Result<(), Fault> {
    judge((bytes.u16(at)? as u32) < n, ACTIONS, at)
}

/// One action of an accepted list, still in the table.
#[derive(Clone, Copy, Debug)]
pub struct Found<'a> {
    pub class: u16,
    pub kind: u16,
    /// Where the data stands in the table.
    pub at: u64,
    /// The data without padding, type 5's flags as the table has them.
    pub data: &'a [u8],
}

/// The actions of an accepted list in order.
pub fn list<'a>(bytes: Bytes<'a>, at: u64) -> impl Iterator<Item = Found<'a>> {
    let count = bytes.known_u32(at);
    let mut start = at + 4;
    (0..count).map(move |_| {
        let found = found_at(bytes, start);
        start += bytes.known_u32(start + 4) as u64;
        found
    })
}

fn found_at(bytes: Bytes, start: u64) -> Found {
    let kind = bytes.known_u16(start + 2);
    let data = start + HEAD;
    let length = match kind {
        0 => DECOMPOSE + 2 * bytes.known_u16(data + 10) as u64,
        _ => fixed_data(kind),
    };
    Found { class: bytes.known_u16(start), kind, at: data, data: bytes.known(data, length) }
}

impl Found<'_> {
    /// The action as the sheet writes it.
    pub fn action(&self) -> Action {
        let mut data = self.data.to_vec();
        if self.kind == 5 {
            data[..2].fill(0);
        }
        Action { class: self.class, kind: self.kind, data }
    }

    /// The glyphs of a type 0 action; empty for any other.
    pub fn components(&self) -> Stretch {
        match self.kind {
            0 => Stretch { at: (self.at + DECOMPOSE) as usize, length: 2 * get_u16(self.data, 10) as usize },
            _ => Stretch::default(),
        }
    }
}

/// Writes an accepted list as section 7 of a sheet has it.
pub fn write(bytes: Bytes, at: u64, out: &mut Vec<u8>) {
    put_u32(out, bytes.known_u32(at));
    for found in list(bytes, at) {
        put_u16(out, found.class);
        put_u16(out, found.kind);
        put_u32(out, found.data.len() as u32);
        let start = out.len();
        out.extend_from_slice(found.data);
        if found.kind == 5 {
            out[start..start + 2].fill(0);
        }
    }
}
