//! The call for one line: every refusal in its order (9, 10, 18, then 11 to
//! 16), then classes, movements, remainder, count of entries and verdicts.

use crate::actions;
use crate::bytes::{refuse, Fault, EDITION, ROOM};
use crate::machine::DELETED_CLASS;
use crate::meaning::{Direction, Parts, WidthRecord, DELETED, PRIORITY, UNLIMITED};
use crate::share::{factor, share, share_to_limits, totals, Room, Shares};
use crate::table::{read_table, Table};
use crate::verdict::{decide, Fires, VerdictRecord};
use crate::walk::walk;

pub const MOST_PLACES: usize = 1_024;
pub const LAST_EDITION: u32 = 2;
pub const MOST_SIZE: i64 = 67_108_864;
pub const MOST_WIDTH: i64 = 1_073_741_823;
pub const MOST_TOTAL: u64 = 8_589_934_592;

/// A line's own numbers.
#[derive(Clone, Copy, Debug)]
pub struct Line<'a> {
    pub direction: Direction,
    /// The line starts the text.
    pub starts: bool,
    /// The line ends the text.
    pub ends: bool,
    /// The edition of the sharing rule, 1 or 2 (document 02, request 7/14).
    pub edition: u32,
    /// Each glyph's own point size (document 02, request 5/14).
    pub sizes: &'a [i64],
    pub glyphs: &'a [u16],
    pub advances: &'a [i64],
    pub target: i64,
}

/// The sizes of a line that is in one size throughout.
pub fn one_size(size: i64, count: usize) -> Vec<i64> {
    vec![size; count]
}

/// A table, its glyph count, and a line.
#[derive(Clone, Copy, Debug)]
pub struct LineInput<'a> {
    pub table: &'a [u8],
    pub n: u32,
    pub line: Line<'a>,
}

/// What an accepted line gives.
#[derive(Clone, Debug, PartialEq, Eq)]
pub struct Justified {
    pub classes: Vec<u8>,
    pub before: Vec<i64>,
    pub after: Vec<i64>,
    pub remainder: i64,
    pub entries: u64,
    pub verdicts: Vec<VerdictRecord>,
}

/// Justifies one line. `classes_len`, `before_len` and `after_len` are the
/// lengths of the lent buffers, `room` is the length of the verdict list.
pub fn justify(
    input: &LineInput,
    classes_len: usize,
    before_len: usize,
    after_len: usize,
    room: usize,
) -> Result<Justified, Fault> {
    let table = read_table(input.table, input.n)?;
    justify_with(&table, &input.line, classes_len, before_len, after_len, room)
}

/// The same for a table that is already accepted.
pub fn justify_with(
    table: &Table,
    line: &Line,
    classes_len: usize,
    before_len: usize,
    after_len: usize,
    room: usize,
) -> Result<Justified, Fault> {
    let lent = [line.advances.len(), line.sizes.len(), classes_len, before_len, after_len];
    refuse(lent.iter().any(|&length| length != line.glyphs.len()), 9)?;
    let gap = check_line(table.glyph_count(), line)?;
    let (classes, entries) = classes_of(table, line).ok_or(Fault::plain(14))?;
    let rooms = rooms_of(table, line, &classes, gap >= 0);
    refuse(totals(&rooms).iter().any(|&total| total > MOST_TOTAL), 15)?;
    let share = if line.edition == 1 { share } else { share_to_limits };
    let shares = share(&rooms, gap.unsigned_abs());
    let (before, after, remainder) = signed(shares, gap < 0);
    let verdicts = verdicts_of(table, line, &classes, &before, &after);
    refuse(verdicts.len() > room, ROOM)?;
    Ok(Justified { classes, before, after, remainder, entries, verdicts })
}

/// Refusals 10, 18 and 11 to 13; gives the gap. A deleted glyph's size is judged like any
/// other, and an empty line has none.
fn check_line(n: u32, line: &Line) -> Result<i64, Fault> {
    refuse(line.glyphs.len() > MOST_PLACES, 10)?;
    refuse(!(1..=LAST_EDITION).contains(&line.edition), EDITION)?;
    refuse(line.sizes.iter().any(|size| !(1..=MOST_SIZE).contains(size)), 11)?;
    let width = 0..=MOST_WIDTH;
    refuse(line.advances.iter().any(|advance| !width.contains(advance)), 12)?;
    let sum: i64 = line.advances.iter().sum();
    refuse(!width.contains(&sum) || !width.contains(&line.target), 12)?;
    refuse(line.glyphs.iter().any(|&glyph| glyph != DELETED && glyph as u32 >= n), 13)?;
    Ok(line.target - sum)
}

/// The classes of a line's glyphs and the count of entries; without a machine
/// all classes are 0 and nothing is counted. `None` where the walk never ends.
pub fn classes_of(table: &Table, line: &Line) -> Option<(Vec<u8>, u64)> {
    let (Some(machine), Some(known)) = (table.machine(line.direction), table.glyph_classes(line.direction)) else {
        return Some((vec![0; line.glyphs.len()], 0));
    };
    let class = |&glyph: &u16| if glyph == DELETED { DELETED_CLASS } else { known.of(glyph as u32) };
    let glyph_classes: Vec<u8> = line.glyphs.iter().map(class).collect();
    walk(machine, &glyph_classes, line.starts, line.ends)
}

/// What each glyph brings to the sharing at its own size, in the gap's
/// direction; only one without a record for its class takes no part.
pub fn rooms_of(table: &Table, line: &Line, classes: &[u8], grow: bool) -> Vec<Option<Room>> {
    let room = |((&glyph, &size), &class): ((&u16, &i64), &u8)| {
        if glyph == DELETED {
            return None;
        }
        let record = table.width_record(line.direction, glyph as u32, class as u32)?;
        Some(room_of(&record, size as u32, grow))
    };
    line.glyphs.iter().zip(line.sizes).zip(classes).map(room).collect()
}

/// A record's part in the sharing: every priority has a stage (document 02,
/// request 2/14).
fn room_of(record: &WidthRecord, size: u32, grow: bool) -> Room {
    let (before, after, flags) = if grow {
        (record.before_grow, record.after_grow, record.grow_flags)
    } else {
        (record.before_shrink, record.after_shrink, record.shrink_flags)
    };
    Room {
        stage: (flags & PRIORITY) as u8,
        unlimited: flags & UNLIMITED != 0,
        before: factor(before, size),
        after: factor(after, size),
    }
}

/// Shares with the gap's sign.
fn signed(shares: Shares, negative: bool) -> (Vec<i64>, Vec<i64>, i64) {
    let sign = |size: u64| if negative { -(size as i64) } else { size as i64 };
    let all = |sizes: Vec<u64>| sizes.into_iter().map(sign).collect();
    (all(shares.before), all(shares.after), sign(shares.remainder))
}

/// The firings by place, then in list order, each judged at its glyph's size.
fn verdicts_of(table: &Table, line: &Line, classes: &[u8], before: &[i64], after: &[i64]) -> Vec<VerdictRecord> {
    let mut verdicts = Vec::new();
    for (place, &glyph) in line.glyphs.iter().enumerate() {
        if glyph == DELETED {
            continue;
        }
        let Some(at) = table.list_at(line.direction, glyph as u32) else { continue };
        let growth = before[place] + after[place];
        for (number, action) in actions::list(table.bytes(), at).enumerate() {
            if action.class != classes[place] as u16 {
                continue;
            }
            let fires = decide(action.kind, action.data, growth, line.sizes[place]);
            if fires != Fires::No {
                let substituting = fires == Fires::Substituting;
                verdicts.push(VerdictRecord { place: place as u32, number: number as u32, substituting });
            }
        }
    }
    verdicts
}
