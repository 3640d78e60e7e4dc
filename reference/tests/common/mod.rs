//! Lines and their answers, for tests.
#![allow(dead_code)]

use reference::{one_size, Fault, Justified, Line, LineInput};

pub use reference::examples::Fields;

/// The smallest table: both directions absent.
pub fn empty_table() -> Vec<u8> {
    Fields::new().l(0x0001_0000).ws(&[0, 0, 0]).done()
}

/// A table with a horizontal direction at 10 and nothing else in it but a
/// width lookup of format 8 with no glyphs; `machine` follows at 22.
pub fn table_with_machine(machine: &[u8]) -> Vec<u8> {
    let head = Fields::new().l(0x0001_0000).ws(&[0, 10, 0]);
    head.ws(&[22, 0, 0]).ws(&[8, 0, 0]).bs(machine).done()
}

/// A table whose horizontal glyphs 0, 1, .. each have a cluster of one pair
/// for class 0: before grow, after grow, before shrink, after shrink, flags.
pub fn table_with_records(records: &[([u32; 4], [u16; 2])]) -> Vec<u8> {
    let count = records.len() as u16;
    let clusters = 10 + 6 + 6 + 2 * count;
    let mut fields = Fields::new().l(0x0001_0000).ws(&[0, 10, 0]);
    fields = fields.ws(&[0, clusters, 0]).ws(&[8, 0, count]);
    for index in 0..count {
        fields = fields.w(28 * index);
    }
    for (limits, flags) in records {
        let [before_grow, after_grow, before_shrink, after_shrink] = *limits;
        fields = fields.l(1).l(0).ls(&[before_grow, before_shrink, after_grow, after_shrink]).ws(flags);
    }
    fields.done()
}

/// A plain horizontal line that starts and ends the text, in one size and under
/// edition 1. Its sizes are never given back, which tests can bear.
pub fn line<'a>(glyphs: &'a [u16], advances: &'a [i64], target: i64, size: i64) -> Line<'a> {
    let sizes = one_size(size, glyphs.len()).leak();
    let direction = reference::Direction::Horizontal;
    Line { direction, starts: true, ends: true, edition: 1, sizes, glyphs, advances, target }
}

/// The number of a refusal that has no offset.
pub fn number(fault: Fault) -> u32 {
    assert_eq!(fault.at, 0, "{fault:?}");
    fault.number
}

/// Justifies with lent buffers of the right lengths; a line's refusal has no
/// offset.
pub fn run(table: &[u8], n: u32, line: Line, room: usize) -> Result<Justified, u32> {
    let count = line.glyphs.len();
    reference::justify(&LineInput { table, n, line }, count, count, count, room).map_err(number)
}

pub const TWELVE_POINTS: i64 = 12 * 65_536;
