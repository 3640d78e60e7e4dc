//! Seeded generators of tables, lines and sheets. Each draw depends on the
//! seed and the index alone.

pub mod draft;
pub mod fonts;
pub mod greatest;
pub mod lines;
pub mod pairs;
pub mod parts;
pub mod rng;
pub mod sheets;
pub mod tables;

pub use lines::LineCase;
pub use pairs::PairCase;
use parts::Style;
use rng::Rng;

/// A table and its glyph count; about half of them are accepted.
pub fn table(seed: u64, index: u64) -> (Vec<u8>, u32) {
    tables::draw(&mut Rng::new(seed, index, 1))
}

/// A table that keeps every rule, and its glyph count.
pub fn sound_table(seed: u64, index: u64) -> (Vec<u8>, u32) {
    let mut rng = Rng::new(seed, index, 2);
    let n = tables::glyph_count(&mut rng);
    (tables::sound(&mut rng, n, Style::PLAIN).bytes, n)
}

/// A table that keeps every rule and has long lookups of formats 2, 4 and 6,
/// and its glyph count.
pub fn long_table(seed: u64, index: u64) -> (Vec<u8>, u32) {
    let mut rng = Rng::new(seed, index, 5);
    let n = tables::long_glyph_count(&mut rng);
    (tables::sound(&mut rng, n, Style::LONG).bytes, n)
}

/// A table that refusal 4, 5, 6, 7 or 8 bars, and its glyph count.
pub fn faulty_table(seed: u64, index: u64) -> (Vec<u8>, u32) {
    let (table, n) = tables::faulty(&mut Rng::new(seed, index, 6));
    (table.bytes, n)
}

/// A table with a line on it; about half of them are accepted.
pub fn line(seed: u64, index: u64) -> LineCase {
    lines::draw(&mut Rng::new(seed, index, 3))
}

/// Two tables read with one glyph count, and a room for their differences.
pub fn pair(seed: u64, index: u64) -> PairCase {
    pairs::draw(&mut Rng::new(seed, index, 7))
}

/// A whole font; about half of them are accepted.
pub fn font(seed: u64, index: u64) -> Vec<u8> {
    fonts::draw(&mut Rng::new(seed, index, 8))
}

/// Bytes that are a sheet about half of the time.
pub fn sheet(seed: u64, index: u64) -> Vec<u8> {
    sheets::draw(&mut Rng::new(seed, index, 4))
}
