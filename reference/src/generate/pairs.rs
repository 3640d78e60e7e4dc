//! Two tables for one glyph count (document 02, request 6/14): the same meaning
//! in other bytes, one small change of each kind, machines of unlike sizes or
//! missing in one, unlike tables, and refused ones.

use super::draft::{Draft, Kind};
use super::parts::{self, Style};
use super::rng::Rng;
use super::tables::{self, change_field};
use crate::bytes::Fault;
use crate::difference::{differences_into, each_difference, Difference};
use crate::sheet_write::write_sheet;
use crate::table::{check_table, read_table, MOST_LENGTH};

/// A pair with more differences is drawn again.
pub const MOST_LISTED: usize = 20_000;

/// Two tables, their glyph count, and a room for the differences.
#[derive(Clone, Debug, PartialEq, Eq)]
pub struct PairCase {
    pub first: Vec<u8>,
    pub second: Vec<u8>,
    pub n: u32,
    pub room: usize,
}

impl PairCase {
    /// The answer to the call.
    pub fn differences(&self) -> Result<Vec<Difference>, Fault> {
        differences_into(&self.first, &self.second, self.n, self.room)
    }
}

/// A pair.
pub fn draw(rng: &mut Rng) -> PairCase {
    loop {
        let (mut first, mut second, n) = tables_of(rng);
        if rng.chance(50) {
            std::mem::swap(&mut first, &mut second);
        }
        let count = count(&first, &second, n);
        if count <= MOST_LISTED {
            let room = room(rng, count);
            return PairCase { first, second, n, room };
        }
    }
}

/// The length of the list, or one more than the most; 0 where there is none.
fn count(first: &[u8], second: &[u8], n: u32) -> usize {
    let (Ok(first), Ok(second)) = (read_table(first, n), read_table(second, n)) else { return 0 };
    let mut count = 0;
    each_difference(&first, &second, |_| {
        count += 1;
        count <= MOST_LISTED
    });
    count
}

/// As much room as is needed, a little less, or more.
fn room(rng: &mut Rng, count: usize) -> usize {
    match rng.weighted(&[40, 25, 10, 5, 20]) {
        0 => count,
        1 => count.saturating_sub(1),
        2 => count + 1,
        3 => rng.below(count as u64 + 1) as usize,
        _ => count + rng.below(100) as usize,
    }
}

/// The kinds of fields that one sort of change is made in.
const CHANGES: [&[Kind]; 6] = [
    &[Kind::ClassByte, Kind::ClassBound],
    &[Kind::CellByte, Kind::EntryRow, Kind::EntryFlags],
    &[Kind::Grow, Kind::Shrink, Kind::Flags, Kind::PairClass],
    &[Kind::Value, Kind::UnitBound, Kind::LastBeforeClosing, Kind::TrimBound, Kind::UnitCount, Kind::ClusterCount],
    &[
        Kind::ActionCount,
        Kind::ActionClass,
        Kind::ActionKind,
        Kind::Data,
        Kind::ComponentCount,
        Kind::Glyph,
        Kind::AddedGlyph,
    ],
    &[Kind::PartOffset, Kind::DirectionOffset],
];

/// Two tables and their glyph count.
fn tables_of(rng: &mut Rng) -> (Vec<u8>, Vec<u8>, u32) {
    let style = rng.pick(&[Style::SMALL, Style::SMALL, Style::LINE, Style::PLAIN, Style::LONG]);
    let mut n = if style.most_units > 0 { tables::long_glyph_count(rng) } else { tables::glyph_count(rng) };
    let first = tables::sound(rng, n, style);
    let mut second = first.clone();
    match rng.weighted(&[20, 42, 10, 8, 12, 8]) {
        0 => disguise(rng, &mut second, n),
        1 => {
            change(rng, &mut second, n);
            if rng.chance(30) {
                disguise(rng, &mut second, n);
            }
        }
        2 => other_machine(rng, &mut second, n, style),
        3 => no_machine(rng, &mut second),
        4 => second = tables::sound(rng, n, style),
        _ => return spoiled(rng, first, second, &mut n),
    }
    (first.bytes, second.bytes, n)
}

/// One of the two is refused, or both, often for unlike reasons.
fn spoiled(rng: &mut Rng, mut first: Draft, mut second: Draft, n: &mut u32) -> (Vec<u8>, Vec<u8>, u32) {
    let which = rng.below(3);
    if which != 0 {
        tables::spoil(rng, &mut first, n);
    }
    if which != 1 {
        tables::spoil(rng, &mut second, n);
    }
    (first.bytes, second.bytes, *n)
}

/// Makes one change that leaves the table accepted and changes its meaning, as
/// far as a few tries find one.
fn change(rng: &mut Rng, table: &mut Draft, n: u32) {
    let kinds = rng.pick(&CHANGES);
    let before = write_sheet(&table.bytes, n);
    for _ in 0..12 {
        let mut other = table.clone();
        change_field(rng, &mut other, n, |kind| kinds.contains(&kind));
        let after = write_sheet(&other.bytes, n);
        if after.is_ok() && after != before {
            *table = other;
            return;
        }
    }
}

/// Puts the table into other bytes by several means, each kept only where the
/// meaning stays.
fn disguise(rng: &mut Rng, table: &mut Draft, n: u32) {
    let before = write_sheet(&table.bytes, n);
    let means: [fn(&mut Rng, &mut Draft); 4] = [ignored_bits, move_all, empty_direction, garbage];
    for mean in means {
        let mut other = table.clone();
        mean(rng, &mut other);
        if rng.chance(70) && write_sheet(&other.bytes, n) == before {
            *table = other;
        }
    }
}

/// Other bits wherever bits are ignored, other signs of shrink limits.
fn ignored_bits(rng: &mut Rng, table: &mut Draft) {
    for mark in table.marks.clone() {
        let value = table.get(mark.at, mark.size);
        let other = match mark.kind {
            Kind::Ignored => rng.u16() as u32,
            Kind::PairClass => value ^ (rng.u32() & !0x7F),
            Kind::Shrink if rng.chance(50) => value.wrapping_neg(),
            Kind::Flags => value ^ (rng.u32() & 0xEFF0),
            _ => value,
        };
        table.set(mark.at, mark.size, other);
    }
}

/// Everything past the header some bytes further on.
fn move_all(rng: &mut Rng, table: &mut Draft) {
    let by = rng.between(1, 40) as u32;
    let add = |table: &mut Draft, at: usize| {
        let value = table.get(at, 2);
        table.set(at, 2, (value + by) & 0xFFFF);
    };
    let mut directions = [table.get(6, 2), table.get(8, 2)].to_vec();
    directions.retain(|&offset| offset != 0);
    directions.dedup();
    for offset in directions {
        let at = offset as usize;
        for field in [at, at + 2, at + 4] {
            // An offset of 0 is none, except that of the clusters.
            if table.get(field, 2) != 0 || field == at + 2 {
                add(table, field);
            }
        }
    }
    for field in [6, 8] {
        if table.get(field, 2) != 0 {
            add(table, field);
        }
    }
    let between: Vec<u8> = (0..by).map(|_| rng.draw() as u8).collect();
    table.bytes.splice(10..10, between);
    for mark in table.marks.iter_mut().filter(|mark| mark.at >= 10) {
        mark.at += by as usize;
    }
}

/// A direction that is absent becomes one that is there and empty.
fn empty_direction(rng: &mut Rng, table: &mut Draft) {
    let field = rng.pick(&[6, 8]);
    if table.get(field, 2) == 0 {
        let at = table.len() as u32;
        let format = rng.pick(&[[8, 0, 0], [2, 6, 0], [6, 4, 0]]);
        for value in [0, 0, 0].into_iter().chain(format) {
            table.bytes.extend(u16::to_be_bytes(value));
        }
        table.set(field, 2, at.min(0xFFFF));
    }
}

/// Bytes after the end.
fn garbage(rng: &mut Rng, table: &mut Draft) {
    let count = rng.below(20) as usize;
    let room = MOST_LENGTH.saturating_sub(table.len());
    table.garbage(rng, count.min(room));
}

/// Another machine in some direction, most often of another size; the old one
/// stays where it is, unused.
fn other_machine(rng: &mut Rng, table: &mut Draft, n: u32, style: Style) {
    let mut other = table.clone();
    let offset = other.get(rng.pick(&[6, 8]), 2) as usize;
    let machine = parts::machine(rng, n, Style { large: false, ..style });
    let at = other.append(&machine);
    if offset != 0 && at <= 0xFFFF {
        other.set(offset, 2, at as u32);
        if check_table(&other.bytes, n).is_ok() {
            *table = other;
        }
    }
}

/// One direction's machine is missing.
fn no_machine(rng: &mut Rng, table: &mut Draft) {
    let offset = table.get(rng.pick(&[6, 8]), 2) as usize;
    if offset != 0 {
        table.set(offset, 2, 0);
    }
}
