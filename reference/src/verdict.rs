//! Post-compensation verdicts (document 01, "Verdicts").

use crate::bytes::get_u32;
use crate::meaning::Action;

/// What an action does for a growth.
#[derive(Clone, Copy, Debug, PartialEq, Eq)]
pub enum Fires {
    No,
    Plain,
    Substituting,
}

/// One firing: the glyph's place in the line, the action's number in the
/// glyph's whole list, and whether it substitutes.
#[derive(Clone, Copy, Debug, PartialEq, Eq, Hash)]
pub struct VerdictRecord {
    pub place: u32,
    pub number: u32,
    pub substituting: bool,
}

/// Whether an action fires for growth `growth` at point size `size`.
pub fn fires(action: &Action, growth: i64, size: i64) -> Fires {
    decide(action.kind, &action.data, growth, size)
}

/// The same on an action's type and data. Limits are signed numbers of ems, so
/// growth times 65,536 is held against limit times size.
pub fn decide(kind: u16, data: &[u8], growth: i64, size: i64) -> Fires {
    let scaled = growth as i128 * 65_536;
    let limit = |at: usize| get_u32(data, at) as i32 as i128 * size as i128;
    match kind {
        0 => plain_if(scaled < limit(0) || scaled > limit(4)),
        2 if growth > 0 && scaled >= limit(0) => Fires::Substituting,
        1 | 2 | 5 => plain_if(growth > 0),
        _ => plain_if(growth != 0),
    }
}

fn plain_if(fires: bool) -> Fires {
    if fires {
        Fires::Plain
    } else {
        Fires::No
    }
}
