//! Sheets and near misses: whether bytes are a sheet, and the parts of those that are.

use crate::questions::Questions;
use crate::refused::{said, Refused};
use crate::{parts, same, Outcome};
use just_raw::Sheet;
use reference::generate;

/// The bytes of a case.
pub fn draw(seed: u64, index: u64) -> Vec<u8> {
    generate::sheet(seed, index)
}

/// Compares all that is said of some bytes.
pub fn compare(bytes: &[u8], asked: &mut Questions) -> Outcome {
    let second = reference::read_sheet(bytes);
    let read = second.as_ref().ok_or(Refused::plain(17));
    same("check_sheet", said(Sheet { bytes }.check()), read.map(|_| ()))?;
    if bytes.len() > 4_000 {
        return Ok(());
    }
    parts::compare("sheet", Sheet { bytes }, read, asked)
}

/// Every change of one byte of a small sheet is judged alike.
pub fn compare_changes(bytes: &[u8]) -> Outcome {
    let mut changed = bytes.to_vec();
    for at in 0..bytes.len() {
        for change in 1..=255 {
            changed[at] = bytes[at] ^ change;
            let second = if reference::check_sheet(&changed) { Ok(()) } else { Err(Refused::plain(17)) };
            same(&format!("byte {at} changed by {change}"), said(Sheet { bytes: &changed }.check()), second)?;
        }
        changed[at] = bytes[at];
    }
    Ok(())
}
