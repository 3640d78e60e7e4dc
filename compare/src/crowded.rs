//! Tables whose parts overlap, so that thousands of lists or clusters share the bytes of a few: drawn tables hardly ever have
//! more than two or three that do.

use crate::questions::Questions;
use crate::{cases, hostile};

/// A small one whose lists overlap, or one of the hostile ones; one table in three is damaged.
pub fn draw(asked: &mut Questions) -> (Vec<u8>, u32) {
    let (mut table, glyphs) = if asked.below(2) == 0 {
        let drawn = hostile::draw(asked);
        (drawn.table, drawn.glyphs)
    } else {
        lists(asked)
    };
    if asked.below(3) == 0 {
        let at = asked.below(table.len() as u64) as usize;
        table[at] = asked.number() as u8;
    }
    (table, glyphs)
}

/// Lists that begin at each eighth byte, of up to 64 actions of a few kinds, led to in any order; one table in two has the
/// vertical direction that the horizontal one is.
fn lists(asked: &mut Questions) -> (Vec<u8>, u32) {
    let most = if asked.below(8) == 0 { 2_500 } else { 300 };
    let glyphs = 20 + asked.below(most) as u16;
    // A length is also the count of the list that begins there.
    let length = [8, 16, 24, 32, 64][asked.below(5) as usize];
    let kind = if length < 24 || asked.below(2) == 0 { 3 } else { 4 };
    let rare = 1 + asked.below(40);
    let words: Vec<u16> = (0..glyphs + 8 * length).map(|_| u16::from(asked.below(rare) == 0)).collect();
    let place = |number: u64| 6 + 2 * glyphs + 8 * number as u16;
    let values: Vec<u16> = (0..glyphs).map(|_| place(asked.below(glyphs.into()))).collect();
    let fields = cases::with_lists(&values);
    let fields = words.iter().fold(fields, |fields, &class| fields.l(length.into()).ws(&[class, kind]));
    let table = fields.l(length.into()).done();
    (if asked.below(2) == 0 { cases::both_ways(table) } else { table }, glyphs.into())
}
