//! Tables drawn to cost the library more than their bytes: lists and clusters that overlap, rows of clusters inside each
//! other, and arrays that units share. `search` times them, and `compare` holds the two programs against each other on them.

use crate::cases;
use crate::questions::Questions;
use reference::examples::Fields;

/// A table with its glyph count, and how it was drawn.
pub struct Hostile {
    pub name: String,
    pub table: Vec<u8>,
    pub glyphs: u32,
}

/// A table that may be too long, or refused.
pub fn draw(asked: &mut Questions) -> Hostile {
    let mut hostile = match asked.below(7) {
        0..=2 => lists(asked),
        3 | 4 => arrays(asked),
        5 => rows(asked),
        _ => pairs(asked),
    };
    if asked.below(3) == 0 {
        hostile.name += ", both directions";
        hostile.table = cases::both_ways(hostile.table);
    }
    hostile
}

fn one_of<T: Copy>(asked: &mut Questions, all: &[T]) -> T {
    all[asked.below(all.len() as u64) as usize]
}

/// The numbers below the end in some order, some of them perhaps more than once.
fn in_order(asked: &mut Questions, end: u32) -> Vec<u32> {
    match asked.below(4) {
        0 => (0..end).collect(),
        1 => (0..end).rev().collect(),
        2 => {
            let step = 1 + asked.below(end.into());
            (0..end).map(|number| (u64::from(number) * step % u64::from(end)) as u32).collect()
        }
        _ => (0..end).map(|_| asked.below(end.into()) as u32).collect(),
    }
}

/// Lists that begin at each eighth byte; a length is also the count of the list that begins there. Classes and types come
/// again after a period, along the bytes or along a list, and most of them may be the same.
fn lists(asked: &mut Questions) -> Hostile {
    let length = one_of(asked, &[8u32, 16, 24, 32, 40, 48, 56, 64]);
    let fitting = [3u16, 1, 5, 2, 4].map(|kind| if length < 24 && (length < 16 || kind == 4) { 3 } else { kind });
    let (kind, other) = (one_of(asked, &fitting), one_of(asked, &fitting));
    let most = (32_500 - length * length) / 10;
    let count = if asked.below(3) == 0 { most.min(200 + asked.below(3_000) as u32) } else { most };
    let period = one_of(asked, &[1u32, 2, 3, 4, 5, 7, 8, 16, 32, 64, 100, 333, 1_009, 3_500]);
    let (classes, rare) = (one_of(asked, &[1u64, 2, 3, 8, 128]), one_of(asked, &[1u64, 1, 4, 20, 60, 200]));
    let along = asked.below(2) == 0;
    let values: Vec<u16> = in_order(asked, count).iter().map(|number| (6 + 2 * count + 8 * number) as u16).collect();
    let mut action = || match (asked.below(rare), asked.below(4)) {
        (0, 0) => [asked.below(classes) as u16, other],
        (0, _) => [asked.below(classes) as u16, kind],
        _ => [0, kind],
    };
    let actions: Vec<[u16; 2]> = (0..period).map(|_| action()).collect();
    let word = |fields: Fields, number: u32| {
        let place = if along { number / (length / 8) } else { number };
        fields.l(length).ws(&actions[(place % period) as usize])
    };
    let table = (0..count + length * length / 8).fold(cases::with_lists(&values), word).l(length).done();
    let name = format!("{count} lists of {length} actions, types {kind} and {other}, period {period}, classes {classes}, one in {rare}, along {along}");
    Hostile { name, table, glyphs: count }
}

/// Units of format 4 with arrays that overlap, whose values lead to a few clusters, which may be all alike.
fn arrays(asked: &mut Questions) -> Hostile {
    let width = one_of(asked, &[5u16, 20, 60, 148, 255, 256, 300, 600, 1_500, 4_000]);
    let units = (u16::MAX / width).min(1 + asked.below(4_000) as u16);
    let (places, alike) = (one_of(asked, &[1u64, 1, 2, 3, 7, 50]), asked.below(2) == 0);
    let more = one_of(asked, &[0u64, 1, 9, 50, 500, 3_000, 8_000]);
    let shift = one_of(asked, &[1u64, 2, 3, 5, 9, 17, 33, 64, 100, 255, 1_000]);
    let array = 12 + 6 * units;
    let values = u64::from(width) + more;
    let drawn = asked.below(3) == 0;
    let mut fields = cases::head((u64::from(16 + array) + 2 * values) as u16).ws(&[4, 6, units, 0, 0, 0]);
    for unit in 0..units {
        let begin = if drawn { asked.below(more + 1) } else { u64::from(unit) * shift % (more + 1) };
        fields = fields.ws(&[unit * width + (width - 1), unit * width, array + 2 * begin as u16]);
    }
    let long = one_of(asked, &[1u64, 300]);
    fields = (0..values).fold(fields, |fields, value| fields.w((28 * (value / long % places)) as u16));
    let grow = |place: u64| if alike { 7 } else { place as u32 };
    let table = (0..places).fold(fields, |fields, place| cases::cluster(fields, grow(place))).done();
    let name = format!("{units} arrays of {width} values, {more} more, shift {shift}, drawn {drawn}, {places} clusters by {long}, alike {alike}");
    Hostile { name, table, glyphs: 65_535 }
}

/// Rows of clusters inside each other, in some order. Rows may be alike but for ignored bits and the signs of shrink limits, or
/// differ in their last pair only.
fn rows(asked: &mut Questions) -> Hostile {
    let pairs = one_of(asked, &[128u32, 128, 100, 64, 48, 36, 20, 10, 4]);
    let rows = 29_000 / (26 * pairs + 4);
    let kinds = one_of(asked, &[1u32, 1, 2, 3, 1_000]);
    let [ignored, signs, late] = [(); 3].map(|()| asked.below(2) == 0);
    let place = |number: u32| ((24 * pairs + 4) * (number / pairs) + 24 * (number % pairs)) as u16;
    let values: Vec<u16> = in_order(asked, rows * pairs).into_iter().map(place).collect();
    let mut fields = cases::trimmed(&values);
    for row in 0..rows {
        fields = fields.l(pairs);
        for pair in 0..pairs {
            let count = (1..pairs - pair).rev().find(|count| count % 16 <= 3).unwrap_or(0);
            let class = if ignored && row % 2 == 1 { pair | 1 << 31 } else { pair };
            let grow = if late && pair + 1 < pairs { 0 } else { row % kinds };
            let shrink = if signs && row % 3 == 1 { 0u32.wrapping_sub(0x100) } else { 0x100 };
            fields = fields.ls(&[class, grow, shrink, pair, 0x100, count]);
        }
    }
    let name =
        format!("{rows} rows of {pairs} pairs, {kinds} kinds, ignored bits {ignored}, signs {signs}, late {late}");
    Hostile { name, table: fields.done(), glyphs: rows * pairs }
}

/// Clusters of one pair that begin at each eighth byte, in some order.
fn pairs(asked: &mut Questions) -> Hostile {
    let count = one_of(asked, &[3_200u32, 3_200, 2_000, 1_000, 300]);
    let (many, period) =
        (one_of(asked, &[1u64, 2, 8, 64, 1_024, 1 << 14]), one_of(asked, &[1u32, 2, 3, 10, 100, 1_000, 5_000]));
    let words: Vec<u32> = (0..period).map(|_| (asked.below(many) as u32) << one_of(asked, &[0, 7])).collect();
    let values: Vec<u16> = in_order(asked, count).iter().map(|number| (8 * number) as u16).collect();
    let word = |fields: Fields, number: u32| fields.ls(&[1, words[(number % period) as usize]]);
    let table = (0..count + 4).fold(cases::trimmed(&values), word).done();
    Hostile {
        name: format!("{count} clusters at each eighth byte, {many} words, period {period}"),
        table,
        glyphs: count,
    }
}
