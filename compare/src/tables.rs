//! Tables: the first fault's number and offset, the field that the Rust layer names there, the parts of the meaning, the
//! component lists, and the table's sheet.

use crate::questions::{self, Questions};
use crate::refused::{said, Refused};
use crate::{library, parts, peer, same, written, Outcome};
use just_raw::{Sheet, Table};
use reference::{generate, Direction};

/// The table of a case, and the glyph count that it is read with.
pub fn draw(seed: u64, index: u64) -> (Vec<u8>, u32) {
    generate::table(seed, index)
}

/// Compares all that is said of one table.
pub fn compare(table: Table, asked: &mut Questions) -> Outcome {
    let Table { bytes, glyph_count } = table;
    let second = reference::read_table(bytes, glyph_count);
    let read = second.as_ref().map_err(|&fault| Refused::fault(fault));
    same("check_table", said(table.check()), read.map(|_| ()))?;
    peer::in_place(same("check_table", said(peer::check(table)), read.map(|_| ())))?;
    compare_field(table, read.err())?;
    parts::compare("table", table, read, asked)?;
    for way in Direction::BOTH {
        for _ in 0..questions::EACH {
            let (glyph, number) = (asked.glyph(glyph_count), asked.action());
            let library = library::components(table, way, glyph, number);
            let second = reference::component_list(bytes, glyph_count, way, glyph.into(), number.into());
            same("components", library, second)?;
        }
    }
    match read {
        Ok(read) => compare_sheet(table, read, asked),
        Err(refused) => written::compare(table, Err(refused), asked),
    }
}

/// The Rust layer names a field for refusals 4 to 8, and for no others.
fn compare_field(table: Table, refused: Option<Refused>) -> Outcome {
    let refusal = just::Table::new(table.bytes, table.glyph_count).err();
    let field = refusal.and_then(|refusal| just::Field::of(table.bytes, table.glyph_count, refusal));
    let wanted = refused.is_some_and(|refused| (4..=8).contains(&refused.number));
    match field {
        None if wanted => Err(format!("no field is named for {refused:?}")),
        Some(field) if !wanted => Err(format!("{field} is named for {refused:?}")),
        _ => Ok(()),
    }
}

/// A table's sheet is written alike and accepted, and where it is not too long to ask of again and again it answers as the
/// table does.
fn compare_sheet(table: Table, read: &reference::Table, asked: &mut Questions) -> Outcome {
    let sheet = reference::write_sheet(table.bytes, table.glyph_count).expect("an accepted table");
    written::compare(table, Ok(&sheet), asked)?;
    let sheet = Sheet { bytes: &sheet };
    same("check_sheet of a table's sheet", said(sheet.check()), Ok(()))?;
    if sheet.bytes.len() > 4_000 {
        return Ok(());
    }
    parts::compare("table's sheet", sheet, Ok(read), asked)
}

/// Counts that bear on refusal 2, beside the one that a table was drawn with.
pub fn compare_counts(bytes: &[u8], asked: &mut Questions) -> Outcome {
    for glyph_count in [0, 1, 65_535, 65_536, u32::MAX] {
        compare(Table { bytes, glyph_count }, asked)?;
    }
    Ok(())
}
