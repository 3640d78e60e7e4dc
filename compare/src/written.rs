//! The sheet of a table as the library writes it into lent rooms.

use crate::guarded::Guarded;
use crate::questions::Questions;
use crate::refused::{said, Refused};
use crate::{same, Outcome};
use just_raw::{Answer, Table};

/// Compares the sheet's length, and the writer in rooms that are exact, one byte short, long and empty; `sheet` is what the
/// second program writes, or the table's refusal.
pub fn compare(table: Table, sheet: Result<&[u8], Refused>, asked: &mut Questions) -> Outcome {
    same("sheet_length", length(table.sheet_length()), sheet.map(<[u8]>::len))?;
    let length = sheet.map_or(64, <[u8]>::len);
    for room in [length, length - 1, length + 9, 0] {
        compare_room(table, sheet, room, asked)?;
    }
    Ok(())
}

/// The answer and every byte of one room of noise, guards included.
fn compare_room(table: Table, sheet: Result<&[u8], Refused>, room: usize, asked: &mut Questions) -> Outcome {
    let sheet = sheet.and_then(|sheet| if sheet.len() <= room { Ok(sheet) } else { Err(Refused::plain(16)) });
    let mut lent = Guarded::new(room, || asked.number() as u8);
    let wanted = lent.clone().filled(sheet.into_iter().flatten().copied());
    let written = length(table.write_sheet(lent.room()));
    let what = format!("write_sheet with {room} bytes of room");
    same(&what, written, sheet.map(<[u8]>::len))?;
    lent.compare(&what, &wanted)
}

/// The length that an answer says, or its refusal.
fn length(answer: Answer<u32>) -> Result<usize, Refused> {
    said(answer).map(|length| length as usize)
}
