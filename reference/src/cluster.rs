//! Width clusters (document 01, "The table", the passage on width values).

use crate::bytes::{get_u16, get_u32, judge, put_u16, put_u32, Bytes, Fault, CLUSTER};
use crate::meaning::{WidthRecord, KEPT_FLAGS, LIMIT, PRIORITY};

/// The most pairs of a cluster.
pub const MOST_PAIRS: u32 = 128;
/// The bytes of a pair: class, four limits, two flags fields.
pub const PAIR: u64 = 24;
/// The bits of the class field that count.
const CLASS_BITS: u32 = 0x7F;
/// The greatest priority.
pub const LAST_PRIORITY: u16 = 3;

/// Finds and judges the cluster at `at`, field by field.
pub fn check(bytes: Bytes, at: u64) -> Result<(), Fault> {
    let count = bytes.u32(at)?;
    judge((1..=MOST_PAIRS).contains(&count), CLUSTER, at)?;
    let mut before: Option<u32> = None;
    for index in 0..count as u64 {
        let pair = at + 4 + PAIR * index;
        let class = bytes.u32(pair)? & CLASS_BITS;
        judge(before.is_none_or(|b| b < class), CLUSTER, pair)?;
        check_grow(bytes, pair + 4)?;
        check_shrink(bytes, pair + 8)?;
        check_grow(bytes, pair + 12)?;
        check_shrink(bytes, pair + 16)?;
        check_flags(bytes, pair + 20)?;
        check_flags(bytes, pair + 22)?;
        before = Some(class);
    }
    Ok(())
}

/// A grow limit is 0 to 16 em; a negative one reads here as too great.
fn check_grow(bytes: Bytes, at: u64) -> Result<(), Fault> {
    judge(bytes.u32(at)? <= LIMIT, CLUSTER, at)
}

/// A shrink limit may have either sign; its size is at most 16 em.
fn check_shrink(bytes: Bytes, at: u64) -> Result<(), Fault> {
    judge(size(bytes.u32(at)?) <= LIMIT, CLUSTER, at)
}

/// Of a flags field only the priority is judged.
fn check_flags(bytes: Bytes, at: u64) -> Result<(), Fault> {
    judge(bytes.u16(at)? & PRIORITY <= LAST_PRIORITY, CLUSTER, at)
}

/// The size of a signed 32-bit number.
fn size(field: u32) -> u32 {
    (field as i32).unsigned_abs()
}

/// The record of a class in an accepted cluster, by binary search.
pub fn record(bytes: Bytes, at: u64, class: u32) -> Option<WidthRecord> {
    let (mut low, mut high) = (0, bytes.known_u32(at) as u64);
    while low < high {
        let middle = (low + high) / 2;
        let pair = at + 4 + PAIR * middle;
        let here = bytes.known_u32(pair) & CLASS_BITS;
        if here == class {
            return Some(record_of(bytes.known(pair + 4, PAIR - 4)));
        } else if here < class {
            low = middle + 1;
        } else {
            high = middle;
        }
    }
    None
}

/// The record of 20 bytes: sizes of the shrink limits, kept bits of the flags.
pub fn record_of(bytes: &[u8]) -> WidthRecord {
    WidthRecord {
        before_grow: get_u32(bytes, 0),
        before_shrink: size(get_u32(bytes, 4)),
        after_grow: get_u32(bytes, 8),
        after_shrink: size(get_u32(bytes, 12)),
        grow_flags: get_u16(bytes, 16) & KEPT_FLAGS,
        shrink_flags: get_u16(bytes, 18) & KEPT_FLAGS,
    }
}

/// Writes an accepted cluster as section 5 of a sheet has it.
pub fn write(bytes: Bytes, at: u64, out: &mut Vec<u8>) {
    let count = bytes.known_u32(at);
    put_u32(out, count);
    for index in 0..count as u64 {
        let pair = at + 4 + PAIR * index;
        put_u32(out, bytes.known_u32(pair) & CLASS_BITS);
        write_record(&record_of(bytes.known(pair + 4, PAIR - 4)), out);
    }
}

/// Writes the 20 bytes of a record.
pub fn write_record(record: &WidthRecord, out: &mut Vec<u8>) {
    put_u32(out, record.before_grow);
    put_u32(out, record.before_shrink);
    put_u32(out, record.after_grow);
    put_u32(out, record.after_shrink);
    put_u16(out, record.grow_flags);
    put_u16(out, record.shrink_flags);
}
