//! The printing program (document 01, the sample that sets it out).

use crate::bytes::{refuse, Fault, LENGTH};
use crate::sheet_write::write_sheet_within;

/// The most bytes of input, N's two among them.
pub const MOST_INPUT: usize = 65_536;
/// The room for the sheet.
pub const ROOM: usize = 65_536;

/// What the program prints for its whole input; of a refusal the number alone.
pub fn print(input: &[u8]) -> String {
    match sheet_for(input) {
        Ok(sheet) => hex_lines(&sheet),
        Err(fault) => format!("refused {}\n", fault.number),
    }
}

fn sheet_for(input: &[u8]) -> Result<Vec<u8>, Fault> {
    refuse(input.len() < 2 || input.len() > MOST_INPUT, LENGTH)?;
    let n = u16::from_be_bytes([input[0], input[1]]);
    write_sheet_within(&input[2..], n as u32, ROOM)
}

/// Lower-case hex, four bytes a line.
fn hex_lines(bytes: &[u8]) -> String {
    let mut text = String::with_capacity(bytes.len() * 9 / 4 + 9);
    for line in bytes.chunks(4) {
        for byte in line {
            text.push(hex_digit(byte >> 4));
            text.push(hex_digit(byte & 15));
        }
        text.push('\n');
    }
    text
}

fn hex_digit(nibble: u8) -> char {
    char::from_digit(nibble as u32, 16).expect("four bits")
}
