//! The ordinary tables that a hostile one of as many bytes is held against.

use crate::cases;

/// A table and its glyph count.
pub type Ordinary = (Vec<u8>, u32);

/// Tables with about so many bytes of table and sheet, as far as tables of their kind can have them: units of format 2 that lead
/// to small clusters, or to small lists.
pub fn judged(bytes: usize) -> Vec<Ordinary> {
    [cases::ordinary_clusters, cases::ordinary_lists].map(|ordinary| ordinary(bytes)).into()
}

/// The same, and rows of clusters inside each other. Nearly all their bytes are the sheet's, which is written fast and not judged.
pub fn written(bytes: usize) -> Vec<Ordinary> {
    let mut tables = judged(bytes);
    tables.push(cases::ordinary_rows(bytes));
    tables
}
