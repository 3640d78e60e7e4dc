//! The printing program.

mod common;

use std::io::Write;
use std::process::{Command, Stdio};

use common::{empty_table, Fields};
use reference::print::print;

fn with_count(n: u16, table: &[u8]) -> Vec<u8> {
    Fields::new().w(n).bs(table).done()
}

#[test]
fn the_sample() {
    let expected = "00000001\n".to_string() + &"00000000\n".repeat(16);
    let input = Fields::new().w(1).l(0x0001_0000).ws(&[0, 0, 0]).done();
    assert_eq!(print(&input), expected);
    let mut child =
        Command::new(env!("CARGO_BIN_EXE_sheet_print")).stdin(Stdio::piped()).stdout(Stdio::piped()).spawn().unwrap();
    child.stdin.take().unwrap().write_all(&input).unwrap();
    let output = child.wait_with_output().unwrap();
    assert_eq!(String::from_utf8(output.stdout).unwrap(), expected);
    assert!(output.status.success());
}

#[test]
fn refusals() {
    assert_eq!(print(&[]), "refused 1\n");
    assert_eq!(print(&[0]), "refused 1\n");
    assert_eq!(print(&[0, 1]), "refused 1\n");
    assert_eq!(print(&vec![0; 65_536]), "refused 1\n");
    assert_eq!(print(&vec![0; 65_537]), "refused 1\n");
    assert_eq!(print(&with_count(0, &empty_table())), "refused 2\n");
    assert_eq!(print(&with_count(1, &[0; 10])), "refused 3\n");
    assert_eq!(print(&with_count(1, &[0; 9])), "refused 1\n");
    let outside = Fields::new().l(0x0001_0000).ws(&[0, 10, 0]).done();
    assert_eq!(print(&with_count(1, &outside)), "refused 4\n");
    // The offset of request 4/14 is not printed.
    let format = Fields::new().l(0x0001_0000).ws(&[0, 10, 0]).ws(&[0, 0, 0, 9]).done();
    assert_eq!(print(&with_count(1, &format)), "refused 5\n");
}

#[test]
fn a_sheet_past_the_room() {
    // Ten glyphs, each with its own cluster of 128 pairs (3,076 bytes); both
    // directions share one header, so the sheet has every cluster twice.
    let (count, pairs) = (10u16, 128u32);
    let clusters = 10 + 6 + 6 + 2 * count;
    let mut fields = Fields::new().l(0x0001_0000).ws(&[0, 10, 10]).ws(&[0, clusters, 0]).ws(&[8, 0, count]);
    for index in 0..count {
        fields = fields.w(index * (4 + 24 * pairs as u16));
    }
    for index in 0..count {
        fields = fields.l(pairs);
        for class in 0..pairs {
            fields = fields.l(class).ls(&[index as u32, 0, 0, 0]).ws(&[0, 0]);
        }
    }
    let table = fields.done();
    assert!(table.len() <= 32_768);
    // 4 + 2 * (4 * 4 + 4 + 10 * 3,076 + 4 + 10 * 6 + 4 + 4) = 61,708.
    assert_eq!(reference::sheet_length(&table, 10), Ok(61_708));
    assert!(print(&with_count(10, &table)).starts_with("0000000a\n"));
    // With format 4 one array serves many units. Clusters alternate, so each
    // glyph is a run of its own: 6 bytes for 2 in the table.
    let units = 8u16;
    let array = 12 + 6 * units;
    let mut fields = Fields::new().l(0x0001_0000).ws(&[0, 10, 0]).ws(&[0, 9_000, 0]);
    fields = fields.ws(&[4, 6, units, 0, 0, 0]);
    for unit in 0..units {
        fields = fields.ws(&[unit * 2_000 + 1_999, unit * 2_000, array]);
    }
    for glyph in 0..2_000 {
        fields = fields.w(28 * (glyph % 2));
    }
    fields = fields.to(9_000);
    for index in 0..2 {
        fields = fields.l(1).l(0).ls(&[index, 0, 0, 0]).ws(&[0, 0]);
    }
    let table = fields.done();
    // 4 + (16 + 4 + 56 + 4 + 16,000 * 6 + 8) + 32.
    assert_eq!(reference::sheet_length(&table, 16_000), Ok(96_124));
    assert_eq!(print(&with_count(16_000, &table)), "refused 16\n");
}
